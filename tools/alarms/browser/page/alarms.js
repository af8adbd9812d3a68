// The alarm list of a plant, or of several. The stream tells rows as they change; what an operator asks goes out by
// /do, bound to the annunciation that was on the screen.
import {drawActions, prepareActions} from "./actions.js";
import {arrange} from "./arrange.js";
import {prepareDialog} from "./asking.js";
import {measureColumns, prepareColumns} from "./columns.js";
import {drawDetail} from "./detail.js";
import {$, allOf, dialog, mark} from "./dom.js";
import {draw, drawBy} from "./draw.js";
import {drawFloods, drawHolding, prepareFloods} from "./floods.js";
import {prepareForm} from "./form.js";
import {drawFilters, drawHead, drawPlants, drawTabs, preparePriorities, prepareTabs} from "./head.js";
import {prepareHold} from "./hold.js";
import {prepareKeys} from "./keys.js";
import {prepareLeaving} from "./leaving.js";
import {keepLook, prepareLooking, sortBy} from "./looking.js";
import {drawNewcomers, prepareNewcomers} from "./newcomers.js";
import {drawList, drawRows} from "./rows.js";
import {prepareSelection} from "./selection.js";
import {drawShift, prepareShift} from "./shift.js";
import {prepareSound} from "./sound.js";
import {listenToStream} from "./stream.js";
import {drawTrouble} from "./trouble.js";

// Milliseconds of a half of a flash, and between two looks whether the list may be old.
const FLASH = 500, WATCH = 250;

function drawShown() {
  drawRows();
  drawActions();
  drawNewcomers();
}

function prepareList() {
  $("list").addEventListener("scroll", drawShown);
  window.addEventListener("resize", () => {
    measureColumns();
    drawShown();
  });
  document.addEventListener("visibilitychange", draw);
  $("help").addEventListener("click", () => dialog("page").showModal());
}

prepareForm();
preparePriorities(mark);
prepareTabs();
for (const place of allOf("[data-mark]")) place.append(mark(place.dataset.mark ?? ""));
prepareLooking();
prepareColumns(sortBy);
prepareFloods();
prepareActions();
prepareDialog();
prepareSelection();
prepareKeys();
prepareHold();
prepareShift();
prepareLeaving();
prepareNewcomers();
prepareList();
drawBy(arrange, drawHead, drawShift, drawPlants, drawFloods, drawHolding, drawTabs, drawFilters, drawDetail, drawList,
  drawActions, drawNewcomers, keepLook);
draw();
setInterval(() => $("list").classList.toggle("flash"), FLASH);
setInterval(drawTrouble, WATCH);
prepareSound();
listenToStream();
