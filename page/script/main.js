// What each control does, and the start.
const on = (id, event, work) => $(id).addEventListener(event, work);
let typing = 0;
const later = (work, wait) => {
  clearTimeout(typing);
  typing = setTimeout(work, wait);
};

on("choose", "click", () => $("files").click());
on("again", "click", () => location.reload());
on("files", "change", () => {
  const given =
    [...$("files").files].map(file => ({ file, path: file.webkitRelativePath || file.name }));
  $("files").value = "";
  take(given).catch(error => fail(error.message));
});
document.addEventListener("dragover", event => {
  event.preventDefault();
  document.body.classList.add("over");
});
document.addEventListener("dragleave", event => {
  if (!event.relatedTarget) document.body.classList.remove("over");
});
document.addEventListener("drop", onDrop);
on("try", "click", () => carryOut(askedAttack()));
on("play", "click", play);
on("time", "input", () => {
  stop();
  show(Number($("time").value));
});
on("core", "change", () => {
  for (const snap of snaps) snap.view = null;
  if (snaps.length) show(at);
});
on("by", "change", () => {
  if (!data) return;
  showGroups();
  showChanges();
  showFacts();
  learnShares();
});
on("mode", "change", () => {
  if (highlight && highlight.kind === "class") highlight = null;
  showPicture();
  if (GROUPINGS[$("mode").value] && $("by").value !== $("mode").value) {
    $("by").value = $("mode").value;
    if (data) showFacts();
    learnShares();
  }
  if (!data) return;
  if ($("mode").value === "set") return applySet();
  if (needsBefore() && !data.before) return show(at);
  showMode();
});
on("search", "input", () => later(search, 120));
on("search", "keydown", event => {
  if (event.key !== "Enter" || !matched || !matched.size) return;
  goTo([...matched][0]);
  $(cursor < NEW_SLOTS ? "new" : "tried").focus();
});
on("sort", "change", () => data && drawMaps());
on("filter", "input", () => data && showGroups());
on("set", "input", () => later(applySet, 500));
on("set-of", "change", applySet);
on("set-bans", "click", takeBans);
on("clear", "click", () => {
  setHighlight(null);
  $("search").focus();
});
on("key", "click", event => {
  const button = event.target.closest("button[data-index]");
  if (!button) return;
  const index = Number(button.dataset.index);
  setHighlight({ kind: "class", index });
  $("key").querySelector(`[data-index="${index}"]`)?.focus();
});
on("groups", "click", event => {
  const row = event.target.closest("tr"), button = row && row.querySelector("button");
  if (button) setHighlight({ kind: "group", by: $("by").value, name: button.dataset.group });
});
on("hits", "click", event => {
  const button = event.target.closest("button");
  if (button) goTo(Number(button.dataset.rec));
});
for (const table of TABLES) {
  on(table, "pointermove", event => onPointer(table, event));
  on(table, "pointerdown", event => onPointer(table, event));
  on(table, "click", chooseGroup);
  on(table, "keydown", event => data && onMapKey(table, event));
}
document.addEventListener("keydown", event => {
  if (event.key === "Escape" && data && highlight) setHighlight(null);
  if (event.key === "/" && !/INPUT|SELECT|TEXTAREA/.test(event.target.tagName) && data) {
    event.preventDefault();
    $("search").focus();
  }
});
on(
  "save-view", "click", () => data && download(stem() + "-view.svg", viewAsSvg(), "image/svg+xml")
);
on("save-picture", "click", savePicture);
on("save-raw", "click", saveRaw);
on("save-list", "click", saveList);
on("picture-box", "toggle", showPicture);
on("peers-box", "toggle", showPeers);
on("since", "change", () => data && show(at));
on("change-box", "toggle", () => {
  if ($("change-box").open && data && !data.before) show(at);
  else if (data) showChanges();
});
on("peers-back", "click", () => turnPeers(-1));
on("peers-on", "click", () => turnPeers(1));
matchMedia("(prefers-color-scheme: dark)").addEventListener("change", () => {
  colours.clear();
  if (data) drawMaps();
});
new ResizeObserver(fit).observe($("view"));
engineReady = startEngine();
engineReady.then(() => {
  $("version").textContent =
    "The engine has @SIZE@ bytes, SHA-256 @HASH@; it is built from addrman @COMMIT@.";
  document.documentElement.dataset.engine = "1";
  return carryOutOwn();
}, error => fail("The engine cannot be started: " + error.message));
