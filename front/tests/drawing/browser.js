"use strict";

// Goes through the pages in the frames: chooses each part of each formula, and writes down what the page then shows. The
// pages are as they were made, under their own security policies; this script stands outside.

const lines = [];
const words = (text) => encodeURIComponent(text);
const digits = (elements, holds) => Array.from(elements, (element) => (holds(element) ? "1" : "0")).join("");

function shown(page) {
  const states = page.querySelectorAll(".model .state");
  const rows = page.querySelectorAll("tbody tr");
  return [
    digits(states, (state) => state.classList.contains("holds")),
    digits(states, (state) => state.querySelector(".mark").textContent === "✓"),
    digits(rows, (row) => row.classList.contains("holds")),
    digits(rows, (row) => row.querySelector(".value").textContent === "✓ holds"),
    Array.from(page.querySelectorAll("[aria-pressed=true]"), (button) => button.dataset.node).join(),
    Array.from(page.querySelectorAll(".says p:not([hidden])"), (line) => words(line.textContent)).join(),
  ].join(" ");
}

function visit(frame, number) {
  const page = frame.contentDocument;
  const view = frame.contentWindow;
  const say = (...what) => lines.push([number, ...what].join(" "));
  const buttons = Array.from(page.querySelectorAll("#parts button"));
  say("title", words(page.title));
  say("formula", words(page.getElementById("parts").textContent));
  say("names", Array.from(page.querySelectorAll("tbody th"), (name) => words(name.textContent)).join());
  say("scripts", page.scripts.length);
  say("requests", view.performance.getEntriesByType("resource").length);
  say("styled", view.getComputedStyle(page.body).marginTop === "0px");
  say("focusable", buttons.every((button) => (button.focus(), page.activeElement === button && button.tabIndex === 0)));
  say("start", shown(page));
  for (const button of buttons) {
    button.click();
    say("part", button.dataset.node, shown(page));
    button.click();
    say("again", button.dataset.node, shown(page));
    // A click beside the button, on a bracket of its part, is a click on the part.
    button.parentElement.click();
    say("beside", button.dataset.node, shown(page));
  }
}

window.addEventListener("load", () => {
  for (const [number, frame] of document.querySelectorAll("iframe").entries()) {
    try {
      visit(frame, number);
    } catch (error) {
      lines.push(`${number} error ${words(String(error))}`);
    }
  }
  document.getElementById("seen").textContent = lines.join("\n");
});
