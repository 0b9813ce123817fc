// The attack that the page makes, and the hours or days of files one after another.
let timer = 0;
const STEP = 500;

// What the attack is like that the page is asked for.
const askedAttack = () => ({
  groups: Number($("attack-groups").value),
  hours: Number($("attack-hours").value),
  isLimited: $("attack-limit").checked,
  isOneAs: $("attack-asmap").checked,
});

// The attacker's groups, as a set of prefixes.
function attackerSet(asked, rows) {
  if (asked.isOneAs) return "AS64666";
  return rows.length > 8 ? "77.0.0.0/8" : rows.join(" ");
}

// Takes the hours of an attack as the files to show.
function takeAttack(asked, found) {
  const bound = asked.isOneAs ? 64 : Math.min(1024, 64 * asked.groups);
  attack = { ...asked, begins: found.begins, bound, logs: null };
  asmap = asked.isOneAs ? { name: "an asmap", bytes: found.asmap } : null;
  bans = null;
  snaps = found.saved.map((saved, hour) => {
    const label = `Hour ${hour}${hour < found.begins ? ", before the attack" : ""}`;
    const date = 1000 * saved.time;
    return { ...saved, name: `hour-${hour}.dat`, label, bytes: saved.peers, date };
  });
  highlight = cursor = matched = null;
  $("search").value = "";
  $("hits").innerHTML = "";
  $("set").value = attackerSet(asked, found.rows);
  $("set-of").value = "source";
  $("mode").value = "set";
  $("core").checked = false;
  $("sort").checked = true;
}

// Has the engine carry out an attack, and shows its last hour.
async function carryOut(asked) {
  const tell = told =>
    status(`The engine carries out hour ${told.hour} of ${told.hours} of the attack …`);
  stop();
  $("try").disabled = true;
  $("error").hidden = true;
  setState("busy");
  try {
    takeAttack(asked, await ask("attack", asked, tell));
    await show(snaps.length - 1);
  } catch (error) { fail(error.message); }
  $("try").disabled = false;
}

// Carries out the log that tools/flood wrote into the page, if there is one.
async function carryOutOwn() {
  const log = $("log").textContent;
  if (log) await carryOut(JSON.parse(new TextDecoder().decode(await inflated(log))));
}

// A line of the chart of shares: the part of some slots or picks that is the attacker's, by hour.
function shareLine(name, stroke, dash, partOf) {
  const values = snaps.map(snap => {
    const [part, whole] = partOf(snap);
    return whole ? 100 * part / whole : 0;
  });
  return { name, stroke, dash, values };
}

function showCharts() {
  const { bound } = attack, buckets = snaps.map(snap => snap.buckets);
  const reached = { name: "buckets", stroke: "--lit", dash: "", values: buckets };
  $("chart").innerHTML = chartOf([reached], bound <= 256 ? 256 : 1024, "", bound);
  const shares = [
    shareLine("of new slots", "--lit", "", snap => [snap.attackSlots, snap.newSlots]),
    shareLine("of picks", "--ink", "1 3", snap => [snap.attackPicks, snap.picks]),
    shareLine("of tried slots", "--rest", "7 3", snap => [snap.attackTried, snap.triedSlots]),
  ];
  $("shares").innerHTML = chartOf(shares, 100, " %", null);
}

// The attack by hours, as charts and as a table.
function showHours() {
  $("hours-box").hidden = !attack;
  if (!attack) return;
  showCharts();
  $("hours").innerHTML = joined(snaps, (snap, hour) => {
    const counts = [
      snap.newSlots, snap.attackSlots, snap.buckets, snap.triedSlots, snap.attackTried,
      snap.picks, snap.attackPicks
    ];
    const cells = joined(counts, numberCell);
    return `<tr class="${hour === at ? "on" : ""}">${headCell(hour)}${cells}</tr>`;
  });
}

function stop() {
  clearTimeout(timer);
  timer = 0;
  $("play").setAttribute("aria-pressed", "false");
  $("play").textContent = "Play";
}

// Shows one file after another, to the last one.
async function play() {
  if (timer) return stop();
  if (at === snaps.length - 1) await show(0);
  $("play").setAttribute("aria-pressed", "true");
  $("play").textContent = "Pause";
  const step = async () => {
    if (!timer) return;
    if (at >= snaps.length - 1) return stop();
    await show(at + 1);
    if (timer) timer = setTimeout(step, STEP);
  };
  timer = setTimeout(step, STEP);
}
