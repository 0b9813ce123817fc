// What can be saved: this view and the program's picture as SVG, the slots as JSON, the list as
// text.
function download(name, text, type) {
  const link = document.createElement("a");
  link.href = URL.createObjectURL(new Blob([text], { type }));
  link.download = name;
  link.click();
  setTimeout(() => URL.revokeObjectURL(link.href), 10000);
}

const peersFiles = () => ({ "peers.dat": snaps[at].bytes, "asmap.dat": asmap && asmap.bytes });
const stem = () => (fileName(snaps[at].name) || "peers").replace(/\.(dat|json)$/, "");

async function saveOutput(words, name, type, more) {
  try {
    const text = await ask("outputOfPeers", {
      words, files: peersFiles(), isCore: isCore(), more
    });
    download(name, text, type);
  } catch (error) { fail(error.message); }
}

function saveList() {
  const more = $("with-key").checked ? [] : ["--no-key"];
  return saveOutput(["show"], stem() + "-list.txt", "text/plain", more);
}

function saveRaw() {
  if (snaps[at].isJson) download(stem() + "-slots.json", snaps[at].bytes, "application/json");
  else saveOutput(["raw"], stem() + "-slots.json", "application/json");
}

const COLOURINGS = ["network", "source", "group", "age"];
// So many sets the program marks at most.
const MAX_MARKS = 6;

// What the program is asked for: the picture in the colours of the page if it has them, with marks
// of the typed prefixes of peers if they are not too many, or else in its own.
function pictureAsked() {
  const by = $("mode").value, isOfPeers = by === "set" && $("set-of").value === "peer";
  const sets = isOfPeers ? typedSets() : [];
  if (sets.length && sets.length <= MAX_MARKS)
    return { words: ["picture"], more: ["--mark", ...sets] };
  return { words: ["picture", ...COLOURINGS.includes(by) ? ["--by", by] : []] };
}

function savePicture() {
  const { words, more } = pictureAsked();
  return saveOutput(words, stem() + ".svg", "image/svg+xml", more);
}

// The program's picture, if it is to be seen.
async function showPicture() {
  const snap = snaps[at];
  if (!$("picture-box").open || !data || !data.chain) return;
  try {
    const text = await ask("outputOfPeers", {
      ...pictureAsked(), files: peersFiles(), isCore: isCore()
    });
    if (snap !== snaps[at]) return;
    const before = $("picture").src;
    $("picture").src = URL.createObjectURL(new Blob([text], { type: "image/svg+xml" }));
    if (before) URL.revokeObjectURL(before);
  } catch (error) { fail(error.message); }
}
