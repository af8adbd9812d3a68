// The end of a user's time: signing out, here and in the other windows of this browser.
import {$, dialog, field, put} from "./dom.js";
import {keep, kept} from "./kept.js";
import {t} from "./language.js";
import {link} from "./link.js";
import {ownPositions} from "./positions.js";
import {me} from "./state.js";

function open() {
  const names = ownPositions().map(one => one.name).join(", ");
  put($("leaving-who"), $("who").textContent ?? "");
  put($("leaving-positions"), names ? t("You still have {positions}: nobody is there from then on.",
    {positions: names}) : "");
  dialog("leaving").showModal();
}

/** Another window of this browser has signed out. */
export function bye() {
  link.signedOut = true;
}

/** Listens to the user's name, and to the dialog behind it. */
export function prepareLeaving() {
  $("who").addEventListener("click", open);
  $("stay").addEventListener("click", () => dialog("leaving").close());
  $("leave").addEventListener("submit", () => {
    field("leave-key").value = me.key;
    if (kept("key") !== null) keep("key", "");
  });
}
