// The chart of events per second: a step for each of the last 120 seconds, with gaps where the server was not there.
const SECONDS = 120, HEIGHT = 40, TOP = 4;

const inWords = (number) => number.toLocaleString("en", { maximumFractionDigits: 0 });

function drawChart(rates) {
  const most = Math.max(0, ...rates.filter((rate) => rate !== null));
  const now = rates.length ? rates[rates.length - 1] : null;
  const height = (rate) => (HEIGHT - 1 - (HEIGHT - 1 - TOP) * (most ? rate / most : 0)).toFixed(2);
  const parts = [];
  for (const { begin, rates: run } of runsOf(rates)) {
    const from = SECONDS - rates.length + begin;
    const curve = run.map((rate, at) => `${from + at} ${height(rate)} L${from + at + 1} ${height(rate)}`).join(" L");
    parts.push(pathOf("area", `M${from} ${HEIGHT} L${curve} L${from + run.length} ${HEIGHT} Z`), pathOf("curve", `M${curve}`));
  }
  const chart = document.getElementById("chart");
  chart.replaceChildren(...parts);
  chart.setAttribute("aria-label", `Events per second in the last two minutes, at most ${inWords(most)}`);
  document.getElementById("rate").textContent = now === null ? "–" : inWords(now);
  document.getElementById("chart-words").textContent = `the last two minutes, at most ${inWords(most)} per second`;
}

// Returns the runs of rates between the gaps, each with the index at which it begins.
function runsOf(rates) {
  const runs = [];
  rates.forEach((rate, at) => {
    if (rate === null) return;
    if (at === 0 || rates[at - 1] === null) runs.push({ begin: at, rates: [] });
    runs[runs.length - 1].rates.push(rate);
  });
  return runs;
}

function pathOf(kind, line) {
  const path = document.createElementNS("http://www.w3.org/2000/svg", "path");
  path.setAttribute("class", kind);
  path.setAttribute("d", line);
  return path;
}
