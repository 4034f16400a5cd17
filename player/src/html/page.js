"use strict";

// What was played: see data() in player/src/html/mod.rs.
const session = JSON.parse(document.getElementById("session").textContent);
const at = Object.fromEntries([...document.querySelectorAll("[id]")].map((one) => [one.id, one]));
const steps = session.steps;
const pictures = unpacked();
const links = listed();
// The picture has a style of its own, which is for it alone.
const drawing = at.pane.attachShadow({ mode: "open" });
let current = 0;
// Waits to put the line into the address: browsers bear only so many changes of it in a second.
let pause = 0;

// The pictures as places in the table: player/src/html/pack.rs says how they are packed.
function unpacked() {
  let before = [];
  return steps.map(({ picture }) => {
    const lines = [];
    for (let two = 0; two < picture.length; two += 2) {
      const [from, count] = [picture[two], picture[two + 1]];
      for (let more = 0; more < count; more++) {
        lines.push(from < 0 ? -1 - from + more : before[from + more]);
      }
    }
    return (before = lines);
  });
}

// The session's lines at the side, each a link to its step.
function listed() {
  return session.lines.map(([text, step], place) => {
    const link = document.createElement("a");
    const asks = steps[step].line === place + 1 && steps[step].said.length > 0;
    link.href = "#" + (place + 1);
    link.onclick = (event) => {
      event.preventDefault();
      show(step);
    };
    fill(link, "span", [text]);
    link.dataset.number = asks ? place + 1 : "";
    link.className = asks ? (steps[step].slip ? "unread" : "") : "comment";
    at.lines.append(link);
    return link;
  });
}

// Puts texts into a place, each as an element of its own.
function fill(place, element, texts) {
  place.replaceChildren(
    ...texts.map((text) => {
      const one = document.createElement(element);
      one.textContent = text;
      return one;
    }),
  );
}

// Puts texts into a list, or words for there being none.
function fillList(list, texts, none) {
  fill(list, "li", texts.length > 0 ? texts : [none]);
  list.classList.toggle("none", texts.length === 0);
}

// Shows a step, the nearest that there is.
function show(wanted) {
  current = Math.max(0, Math.min(wanted, steps.length - 1));
  const step = steps[current];
  fill(at.remarks, "p", step.remarks);
  at.asked.textContent = title(step);
  fillList(at.said, step.said, "nothing");
  fillList(at.waits, step.waits, "nobody waits");
  fillList(at.changes, step.changes, "nothing");
  drawing.innerHTML = pictures[current].map((line) => session.table[line]).join("\n");
  at.pane.setAttribute("aria-label", drawing.querySelector("title").textContent);
  size();
  mark(step);
  at.words.scrollTop = 0;
  clearTimeout(pause);
  pause = setTimeout(() => history.replaceState(null, "", "#" + step.line), 300);
}

function title(step) {
  if (current === 0) return "Before the first request";
  return step.said.length > 0 ? session.lines[step.line - 1][0] : "After the last request";
}

// Marks where the step stands, at the side and in the controls.
function mark(step) {
  links.forEach((link, place) => {
    link.classList.toggle("current", session.lines[place][1] === current);
    link.removeAttribute("aria-current");
  });
  const own = links[step.line - 1];
  own?.setAttribute("aria-current", "step");
  (own ?? links[0])?.scrollIntoView({ block: "nearest" });
  at.slider.value = current;
  at.slider.setAttribute("aria-valuetext", step.line ? "line " + step.line : "the start");
  const line = step.line > 0 ? `, line ${step.line}` : "";
  at.count.textContent = `${current} of ${steps.length - 1}${line}`;
  at.first.disabled = at.back.disabled = current === 0;
  at.last.disabled = at.next.disabled = current === steps.length - 1;
}

// Gives the picture its real size, or less where the whole of it is to be seen.
function size() {
  const svg = drawing.querySelector("svg");
  const { width, height } = svg.viewBox.baseVal;
  const whole = Math.min(1, at.pane.clientWidth / width, at.pane.clientHeight / height);
  const scale = at.fit.getAttribute("aria-pressed") === "true" ? whole : 1;
  svg.style.cssText = `display: block; width: ${width * scale}px; height: ${height * scale}px`;
}

// The step that the address names by a line, as in page.html#29.
function named() {
  const line = Number(location.hash.slice(1)) || 0;
  return line > 0 ? (session.lines[Math.min(line, session.lines.length) - 1]?.[1] ?? 0) : 0;
}

// What each key does. A slider moves itself, and a button takes the space for itself.
function pressed(event) {
  if (event.ctrlKey || event.altKey || event.metaKey) return;
  const to = {
    ArrowRight: current + 1,
    ArrowLeft: current - 1,
    Home: 0,
    End: steps.length - 1,
    " ": event.shiftKey ? current - 1 : current + 1,
  }[event.key];
  const taken = event.key === " " ? event.target.closest("button") : event.target === at.slider;
  if (to === undefined || taken) return;
  event.preventDefault();
  show(to);
}

at.first.onclick = () => show(0);
at.back.onclick = () => show(current - 1);
at.next.onclick = () => show(current + 1);
at.last.onclick = () => show(steps.length - 1);
at.slider.oninput = () => show(Number(at.slider.value));
at.fit.onclick = () => {
  at.fit.setAttribute("aria-pressed", at.fit.getAttribute("aria-pressed") !== "true");
  size();
};
at.slider.max = steps.length - 1;
addEventListener("keydown", pressed);
addEventListener("hashchange", () => show(named()));
addEventListener("resize", size);
[at.controls, at.lines, document.querySelector("main")].forEach((part) => (part.hidden = false));
show(named());
