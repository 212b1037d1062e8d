// How a page gets into the room. Its address contains a key behind the `#`, which works once. For it
// the room returns a token, which is part of every path that the page asks for. This tab alone keeps
// it: a page that another program served at this port before, and that is still open, has the same
// origin, but cannot read it.

const KEPT = "way";
const NOT_LET_IN =
  "This address does not let you into the room: each address works only once." +
  " Open the address that the room printed last, on its terminal or in its file.";

function keptWay() {
  try {
    return sessionStorage.getItem(KEPT);
  } catch (error) {
    return null;
  }
}

function keepWay(way) {
  try {
    sessionStorage.setItem(KEPT, way);
  } catch (error) {
    // (the page then needs a new address after a reload)
  }
}

// Returns the room's answer, or null if it lets nobody in. Throws an error that says why if there is
// no answer.
async function answerOf(path, given) {
  const answer = await fetch(path, given).catch(() => null);
  if (answer === null) throw new Error("The room cannot be reached");
  if (answer.status === 403) return null;
  if (!answer.ok) throw new Error((await answer.text()).trim());
  return answer.json();
}

function toldAs(values) {
  const headers = { "Content-Type": "application/json" };
  return { method: "POST", headers, body: JSON.stringify(values) };
}

// Trades the key of the address for a way, and removes it from the address. Without a key it returns
// the way that this page kept before it was reloaded.
async function findWay() {
  const key = location.hash.slice(1);
  const found = key ? await answerOf("/in", toldAs({ key })) : null;
  if (found) keepWay(`/${found.token}/`);
  history.replaceState(null, "", "/");
  return found ? `/${found.token}/` : keptWay();
}

function sayAlone(text) {
  document.body.replaceChildren(made("p", text));
}

// Calls `begin` with the way and with the facts of the room that do not change, or says why this page
// is not let in.
async function comeIn(begin) {
  try {
    const way = await findWay();
    const room = way && (await answerOf(`${way}room`));
    if (room) begin(way, room);
    else sayAlone(NOT_LET_IN);
  } catch (error) {
    sayAlone(`${error.message}: reload this page`);
  }
}

// (another address of the room was typed into this page's address bar)
addEventListener("hashchange", () => location.reload());
