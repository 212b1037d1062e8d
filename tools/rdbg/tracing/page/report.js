// The report of the page: the question that it answers, and how it was made.

// Shows a text below its summary, once somebody looks; nothing where there is none.
function offerText(details, what, it) {
  details.hidden = !it;
  if (!it) return;
  details.querySelector("summary").textContent = what;
  details.addEventListener("toggle", () => details.open && fillText(details, it));
  details.querySelector("button").addEventListener("click", () => saveText(it.name, it.text));
}

function fillText(details, it) {
  const pre = details.querySelector("pre");
  if (it && !pre.textContent) pre.textContent = it.text;
}

class ReportPanel {
  constructor(run, report, go) {
    this.run = run;
    const { application, lines, other } = report;
    this.texts = { application, lines, "other-lines": other };
    const { asked, consts, day, made: maker } = report;
    byId("made-by").textContent = `Made on ${day} by ${maker}.`;
    const given = consts.map((it) => ` -D ${it}`).join("");
    offerText(byId("application"), `Model: ${application?.name}${given}`, application);
    offerText(byId("lines"), `Commands: ${lines?.name}`, lines);
    offerText(byId("other-lines"), `Commands of the other run: ${other?.name}`, other);
    // (place 0 is of no move)
    this.lost = asked?.lost || null;
    if (asked) this.showAsked(asked, go);
  }

  // Has all texts there, as far as one page takes them.
  fill() {
    for (const [id, it] of Object.entries(this.texts)) fillText(byId(id), it);
  }

  // The question with its answer, and a link to where that is seen.
  showAsked({ words, said, at, lost, order }, go) {
    byId("asked").hidden = false;
    byId("asked-words").textContent = `${words}?`;
    const move = lost === null ? null : this.run.move(lost);
    const more = move ? [`Move ${moveSentence(this.run, move)} lost it.`] : [];
    byId("asked-said").textContent = [...said, ...more].join(" ");
    const link = byId("asked-place");
    link.hidden = at === null || at < this.run.first || at > this.run.last;
    link.href = `#${at}`;
    link.textContent = `place ${at}`;
    link.addEventListener("click", (event) => {
      event.preventDefault();
      go(at);
    });
    byId("order").hidden = !order.length;
    byId("order").querySelector("pre").textContent = order.join("\n");
  }

  // What there is to say of a place besides.
  said(place) {
    if (this.lost === null || place < this.lost) return "";
    return place === this.lost ? " -- the point of no return" : " -- after the point of no return";
  }
}
