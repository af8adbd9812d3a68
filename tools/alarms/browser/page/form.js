// The page in light or in dark, as the operator chose in this browser, else as its system says.
import {$, put} from "./dom.js";
import {keep, kept} from "./kept.js";
import {t} from "./language.js";

const SYSTEM = matchMedia("(prefers-color-scheme: dark)");

function draw() {
  const isDark = (kept("form") ?? (SYSTEM.matches ? "dark" : "light")) === "dark";
  document.documentElement.dataset.form = isDark ? "dark" : "light";
  put($("form"), isDark ? t("Light") : t("Dark"));
}

/** Listens to its button, and to the system. */
export function prepareForm() {
  $("form").addEventListener("click", () => {
    keep("form", document.documentElement.dataset.form === "dark" ? "light" : "dark");
    draw();
  });
  SYSTEM.addEventListener("change", draw);
  draw();
}
