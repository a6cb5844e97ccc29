// The list of questions, the newest one first. A row stays the same element while it changes, so that it keeps the focus.
const rows = new Map();

const keyOf = (question) => `${question.run}-question-${question.number}`;
const nounOf = (question) => question.window === null ? "question" : "window";
const titleCase = (word) => word[0].toUpperCase() + word.slice(1);
const isSettled = (question) => question.delivered === question.total;
const plural = (number, one) => `${inWords(number)} ${number === 1 ? one : one + "s"}`;

function drawQuestions(questions) {
  const keys = new Set(questions.map(keyOf));
  for (const [key, row] of rows) {
    if (!keys.has(key)) {
      row.element.remove();
      rows.delete(key);
    }
  }
  for (const question of questions) {
    const key = keyOf(question);
    if (!rows.has(key)) {
      rows.set(key, newRow(question));
      document.getElementById("questions").prepend(rows.get(key).element);
    }
    fillRow(rows.get(key), question);
  }
  document.getElementById("no-questions").hidden = questions.length > 0;
}

function newRow(question) {
  const make = (name, className = "") => Object.assign(document.createElement(name), { className });
  const row = { element: make("li"), what: make("span", "faint count"), done: make("span", "count"), found: make("span", "count") };
  row.bar = make("progress");
  row.moving = make("span", "progress");
  row.moving.append(row.bar);
  row.tasks = make("span", "faint count");
  row.button = make("button");
  row.button.setAttribute("aria-label", `Show the report of ${nounOf(question)} ${question.number}`);
  row.button.addEventListener("click", () => showReport(keyOf(question), true));
  const name = make("strong");
  name.textContent = `${titleCase(nounOf(question))} ${question.number}`;
  row.bar.setAttribute("aria-label", `Progress of question ${question.number}`);
  row.done.append(row.moving, row.tasks);
  row.element.append(name, row.what, row.done, row.found, row.button);
  return row;
}

function fillRow(row, question) {
  const settled = isSettled(question);
  const events = question.length || question.window === null ? plural(question.length, "event") : ""; // nobody counts those of a left out window
  row.what.textContent = events + (question.bound ? `, at most ${question.bound} threads` : "");
  row.moving.hidden = settled || question.window !== null;
  row.bar.max = Math.max(1, question.total);
  row.bar.value = question.delivered;
  const progress = `${inWords(question.delivered)} of ${plural(question.total, "task")}, ${inWords(question.seconds ?? 0)} s`;
  row.tasks.textContent = question.window ?? (settled ? "settled" : progress);
  fillFound(row.found, question, settled);
  row.button.disabled = !settled;
  const isShown = keyOf(question) === shown.key;
  row.button.textContent = isShown ? "Shown" : "Show report";
  row.element.classList.toggle("shown", isShown);
  row.element.setAttribute("aria-current", isShown);
}

function fillFound(element, question, settled) {
  if (!question.bound) {
    element.replaceChildren("not examined");
    return;
  }
  const confirmed = document.createElement("span");
  confirmed.textContent = `${inWords(question.confirmed)} confirmed`;
  confirmed.className = question.confirmed > 0 ? "confirmed-count" : "";
  element.replaceChildren(`${plural(question.cycles, "cycle")}, `, confirmed, settled || question.window !== null ? "" : " so far");
}
