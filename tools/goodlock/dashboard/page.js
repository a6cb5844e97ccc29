// Reads the state every second and shows it; asks questions.
const PERIOD = 1000;
const STATES = { connecting: "connecting", connected: "connected", gone: "server gone", busy: "server busy", silent: "no reply",
  other: "not goodlockd", ended: "dashboard ended", over: "run ended" };
const { token, instance } = document.documentElement.dataset;
const NOTHING = { kind: "", text: "No question is settled yet" };
let state = { connection: "connecting", run: 0 };
let hasChosen = false; // a bound
const asked = { key: null }; // the question that this page has asked and that is not settled

const clock = (seconds) => new Date(1000 * seconds).toLocaleTimeString("en-GB");

function setText(id, text) {
  if (byId(id).textContent !== text) byId(id).textContent = text; // an equal text would be read aloud again
}

function say(text, isRefusal = false) {
  byId("asked").className = isRefusal ? "refusal" : "";
  setText("asked", text);
}

function messageOf() {
  if (state.connection === "ended") {
    return "The dashboard has ended, so this page no longer changes. It goes on when the dashboard is started again at this address.";
  }
  if (state.connection !== "connected") {
    const seen = state.seen_at ? ` Shown is the state at ${clock(state.seen_at)}.` : "";
    return `${state.message}${state.connection === "over" ? "" : " Trying again every second."}${seen}`;
  }
  return state.restarted_at ? `The server has restarted at ${clock(state.restarted_at)}. Its earlier events and questions are gone.` : "";
}

function drawConnection() {
  if (state.connection === "connected" && !byId("connection").classList.contains("connected")) say("");
  byId("connection").className = `state ${state.connection}`;
  setText("connection", STATES[state.connection]);
  const message = messageOf();
  byId("message").hidden = !message;
  setText("message", message);
  drawVerdict();
  byId("ask-button").disabled = state.connection !== "connected";
}

function drawState() {
  drawConnection();
  setText("server", state.server);
  byId("ask-part").hidden = state.windows;
  setText("questions-title", state.windows ? "Windows" : "Questions");
  byId("full").hidden = !state.full;
  setText("full-events", inWords(state.accepted ?? 0));
  byId("deadlock").hidden = !state.deadlock.length;
  setText("deadlock-lines", state.deadlock.join("\n"));
  setText("hint", state.server);
  byId("no-events").hidden = state.accepted !== 0 || state.windows;
  setText("accepted", state.accepted === null ? "–" : inWords(state.accepted));
  drawChart(state.rates);
  followReport(state.questions);
  drawQuestions(state.questions);
  offerBound(state.questions);
}

function drawVerdict() {
  const verdict = state.verdict ?? NOTHING;
  byId("verdict").className = verdict.kind ? `verdict ${verdict.kind}` : "faint";
  setText("verdict", verdict.text);
  const found = state.verdict ? `${verdict.text} – ` : "";
  document.title = (state.connection === "connected" ? found : `${STATES[state.connection]} – `) + "goodlockd";
}

// Offers the bound of the last question, until the user has chosen another one.
function offerBound(questions) {
  const last = questions[questions.length - 1];
  if (last?.bound >= 2 && last.bound <= 8 && !hasChosen) byId("bound").value = last.bound;
}

async function look() {
  const found = await fetch("/state").then((reply) => reply.json()).catch(() => null);
  if (!found) {
    state.connection = "ended";
    drawConnection();
  } else if (found.instance !== instance) {
    location.reload(); // the dashboard was started again, and has another token
  } else {
    state = found;
    drawState();
  }
}

async function ask(event) {
  event.preventDefault();
  say("");
  try {
    const body = JSON.stringify({ bound: Number(byId("bound").value) });
    const reply = await (await fetch("/ask", { method: "POST", headers: { "X-Token": token }, body })).json();
    if (reply.refusal) {
      say(reply.refusal, true);
    } else {
      asked.key = keyOf(reply.question);
      say(`Question ${reply.question.number} is open.`);
      await look();
    }
  } catch {
    say("The question could not be asked.", true);
  }
}

async function watch() {
  for (;;) {
    await look();
    await new Promise((done) => setTimeout(done, PERIOD));
  }
}

byId("ask").addEventListener("submit", ask);
byId("bound").addEventListener("change", () => { hasChosen = true; });
watch();
