"use strict";

// A click on a part of the formula shows the states where it holds: in the drawing, in the table and in a sentence.
const formula = document.getElementById("parts");
const buttons = Array.from(formula.querySelectorAll("button"));
const whole = document.getElementById("part-0");

function show(state, holds) {
  const drawn = document.getElementById(`state-${state}`);
  const row = document.getElementById(`row-${state}`);
  drawn.classList.toggle("holds", holds);
  drawn.querySelector(".mark").textContent = holds ? "✓" : "✗";
  row.classList.toggle("holds", holds);
  row.querySelector(".value").textContent = holds ? "✓ holds" : "✗ fails";
}

function choose(chosen) {
  for (const button of buttons) {
    const pressed = button === chosen;
    button.setAttribute("aria-pressed", String(pressed));
    button.parentElement.classList.toggle("chosen", pressed);
    document.getElementById(`says-${button.dataset.node}`).hidden = !pressed;
  }
  Array.from(chosen.dataset.holds).forEach((digit, state) => show(state, digit === "1"));
}

// A click between the buttons chooses the innermost part there; a second one goes back to the whole formula.
formula.addEventListener("click", (event) => {
  const part = event.target.closest(".part");
  if (part === null) return;
  const button = part.querySelector(":scope > button");
  choose(button.getAttribute("aria-pressed") === "true" ? whole : button);
});
