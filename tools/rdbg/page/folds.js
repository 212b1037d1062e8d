// Parts of a page that are folded in a small window; downloads of texts as files.

const SMALL = "(max-width: 1200px), (max-height: 700px)";

// Folds parts of the page in a small window, and unfolds them in a larger one, also on a resize.
function foldAway() {
  const small = matchMedia(SMALL);
  const fold = () => {
    for (const it of document.querySelectorAll("details.fold")) it.open = !small.matches;
  };
  small.addEventListener("change", fold);
  fold();
}

// Returns an input field, after unfolding the part of the page that contains it.
function unfolded(id) {
  const field = byId(id);
  const fold = field.closest("details");
  if (fold) fold.open = true;
  return field;
}

// Offers a text as a file of this name.
function saveText(name, text) {
  const link = made("a");
  link.href = URL.createObjectURL(new Blob([text], { type: "text/plain" }));
  link.download = name;
  link.click();
  setTimeout(() => URL.revokeObjectURL(link.href), 1000);
}
