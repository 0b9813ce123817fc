// What a test reads of the page, beside the texts that it shows.
window.look = {
  // The slots in use by the names that `raw` has for them.
  slots() {
    const found = { new: {}, tried: {} };
    for (let i = 0; i < CELLS; i++) {
      const r = data.slots[i], table = i < NEW_SLOTS ? "new" : "tried", k = i - FIRST[table];
      const rec = [data.name[r], data.port[r], data.source[r], data.time[r]];
      if (r >= 0) found[table][`${k >> 6}/${k & 63}`] = rec;
    }
    return found;
  },

  // Each peer with its tries, last success, services and share of picks.
  peers() {
    const of = r => [data.tries[r], data.success[r], String(data.services[r]), data.share[r]];
    return data.form.map((form, r) => [`${form}:${data.port[r]}`, ...of(r)]);
  },

  // The counts of groups by what they are of, and the names of those listed first.
  rows: by => rowsBy(data, by),
  first: count => listedRows().slice(0, count).map(row => row.group),

  // What the list shows as shares of picks, by the names of the groups, once it is by this.
  async shares(by) {
    const before = $("by").value;
    $("by").value = by;
    await learnShares();
    const found = listedRows().map(row => [riskName(row.group), millionthsText(row.share)]);
    $("by").value = before;
    showGroups();
    return found;
  },

  // What is said of the picks of typed peers, in millionths.
  async setShare(words) {
    $("mode").value = "set";
    $("set").value = words;
    $("set-of").value = "peer";
    await applySet();
    return setShare;
  },

  // Notes in `watched` how many milliseconds after the next drop tables are on the screen, all is
  // known, and the shares of picks are there.
  watch() {
    window.watched = {};
    let from = 0;
    const note = name => { watched[name] ||= performance.now() - from; };
    const afterFrame = work => requestAnimationFrame(() => setTimeout(work));
    document.addEventListener("drop", () => { from = performance.now(); }, true);
    const states = new MutationObserver(() => {
      const { state } = document.documentElement.dataset;
      if (!from || !data || state !== "drawn" && state !== "ready") return;
      afterFrame(() => {
        note("drawn");
        if (document.documentElement.dataset.state === "ready") note("ready");
      });
    });
    states.observe(document.documentElement, { attributes: true });
    const rows = new MutationObserver(() => {
      if (from && data && data.shares.peer) note("shares");
    });
    rows.observe($("groups"), { childList: true });
  },

  // How many milliseconds the middle one of so many calls takes.
  middle(work, count) {
    const times = Array.from({ length: count }, () => {
      const from = performance.now();
      work();
      return performance.now() - from;
    });
    return times.sort((a, b) => a - b)[count >> 1];
  },

  // The same for drawing both maps anew, and for moving the cursor to another slot.
  redraw: () => look.middle(() => showMode(), 25),
  move: () => look.middle(() => moveTo((cursor || 0) + 4099 & 65535), 99),

  // The times between so many frames, in milliseconds, if each one has its work.
  frames: (work, count) => new Promise(done => {
    const times = [];
    let last = 0;
    const next = now => {
      if (last) times.push(now - last);
      last = now;
      if (times.length === count) return done(times);
      work(times.length);
      requestAnimationFrame(next);
    };
    requestAnimationFrame(next);
  }),

  // The pointer going over both maps; the slots by keys; and one colouring after another.
  overSlots: k => {
    const table = TABLES[k & 1], box = $(table).getBoundingClientRect();
    const along = part => part * (k * 37 % 97) / 97;
    const where = { clientX: box.left + along(box.width), clientY: box.top + along(box.height) };
    $(table).dispatchEvent(new PointerEvent("pointermove", { ...where, bubbles: true }));
  },
  byKeys: k => {
    const key = ["n", "ArrowRight", "ArrowDown", "PageDown"][k & 3];
    $("new").dispatchEvent(new KeyboardEvent("keydown", { key, bubbles: true }));
  },
  recolour: k => {
    $("mode").value = ["placed", "source", "group", "network", "age", "success", "tries"][k % 7];
    $("mode").dispatchEvent(new Event("change"));
  },

  slotsInUse: () => data.used.new + data.used.tried,
  slotsOfClasses: () => classes.list.reduce((sum, one) => sum + one.count, 0),

  // The element that has the focus, and whether it has a name.
  focus() {
    const e = document.activeElement, label = e.labels && e.labels[0];
    const name = e.getAttribute("aria-label") || e.innerText || label && label.innerText || "";
    return [e.id || e.tagName, name.trim() !== ""];
  },

  // The texts of the cells of a table's rows.
  cells: id => [...$(id).rows].map(row => [...row.cells].map(cell => cell.innerText.trim())),

  // How many lit slots each tile of a map has.
  litByTile: table => [...order[table]].map(bucket => {
    let count = 0;
    for (let i = FIRST[table] + 64 * bucket, k = 0; k < 64; k++)
      if (data.slots[i + k] >= 0 && isLit(i + k)) count++;
    return count;
  }),

  // The slot under the middle of a dot of the map of the new table.
  slotAtDot(x, y) {
    const box = $("new").getBoundingClientRect(), middle = at => scale.new * (at + 0.5);
    return slotUnder("new", { clientX: box.left + middle(x), clientY: box.top + middle(y) });
  },

  // Moves the pointer to a slot of the map of the new table, and clicks.
  point(i) {
    const box = $("new").getBoundingClientRect(), middle = at => scale.new * (at + 0.5);
    const [x, y] = dotOf("new", i);
    const where = { clientX: box.left + middle(x), clientY: box.top + middle(y), bubbles: true };
    $("new").dispatchEvent(new PointerEvent("pointermove", where));
    $("new").dispatchEvent(new MouseEvent("click", where));
  },

  // Keeps what would be downloaded in place of a download.
  keepDownloads() {
    const make = URL.createObjectURL;
    window.kept = null;
    HTMLAnchorElement.prototype.click = function () {};
    URL.createObjectURL = blob => {
      window.kept = blob;
      return make.call(URL, blob);
    };
  },

  // Whether the page may ask something of another machine.
  fetched: () => fetch("https://example.org/").then(() => "went out", () => "refused"),
  fetchedByWorker: () => new Promise(done => {
    const script = "fetch('https://example.org/').then(() => 'went out', () => 'refused')" +
      ".then(postMessage)";
    new Worker(URL.createObjectURL(new Blob([script]))).onmessage = ({ data }) => done(data);
  }),
  loaded: () => new Promise(done => {
    const image = new Image();
    image.onload = () => done("went out");
    image.onerror = () => done("refused");
    image.src = "https://example.org/a.png";
  }),

  // Drops files that are given as name, base64 and time of the last change.
  drop(files) {
    const dropped = new DataTransfer();
    for (const [name, text, lastModified] of files) {
      const bytes = Uint8Array.from(atob(text), c => c.charCodeAt(0));
      dropped.items.add(new File([bytes], name, { lastModified }));
    }
    const event = { dataTransfer: dropped, bubbles: true, cancelable: true };
    document.body.dispatchEvent(new DragEvent("drop", event));
  },
};
