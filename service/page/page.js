"use strict";
// Shows what the service tells. All texts go into the page as texts: nothing that comes from a device or an image is read as HTML.
// The token is kept in this page's memory and in the fragment of its address, and nowhere else.

const PATH_LINES = 500;
const find = (id) => document.getElementById(id);
const page = { token: "", change: -1, shown: null, decided: new Map(), picture: "" };

class Refusal extends Error {
  constructor(status, text) {
    super(text);
    this.status = status;
  }
}

async function call(method, path, body) {
  const headers = { Authorization: `Bearer ${page.token}` };
  if (body !== undefined) headers["Content-Type"] = "application/json";
  const answer = await fetch(path, { method, headers, body: body === undefined ? undefined : JSON.stringify(body) });
  if (!answer.ok) {
    const told = await answer.json().catch(() => ({ what: answer.statusText, where: path }));
    throw new Refusal(answer.status, `${told.what} (${told.where})`);
  }
  return answer;
}

const get = async (path) => (await call("GET", path)).json();

function make(tag, attributes = {}, ...inside) {
  const made = document.createElement(tag);
  for (const [name, value] of Object.entries(attributes)) {
    if (name.startsWith("on")) made.addEventListener(name.slice(2), value);
    else made.setAttribute(name, value);
  }
  made.append(...inside);
  return made;
}

const time = (milliseconds) => {
  const at = new Date(milliseconds);
  return make("time", { datetime: at.toISOString() }, at.toLocaleString());
};

const badge = (state) => make("span", { class: `badge ${state}` }, state);

function tell(text) {
  find("error").textContent = text;
  find("error").hidden = !text;
}

// What a reader who filled in a form or pushed a button is told when it fails.
const guarded = (work) => async (event) => {
  event.preventDefault();
  tell("");
  try {
    await work(event);
  } catch (failure) {
    tell(failure.message);
  }
};

function deviceRow(device) {
  const last = device.last;
  const field = make("input", { type: "number", min: "1", max: "65535", value: "1", required: "", id: `operation-${device.id}` });
  const ask = guarded(async () => {
    const issued = await (await call("POST", `/devices/${device.id}/challenges`, { operation: Number(field.value) })).json();
    await show(issued.challenge, true);
  });
  return make("li", { "data-device": device.id },
    make("div", { class: "row-head" },
      make("span", { class: "name" }, `device ${device.id}`),
      last ? badge(last.state) : make("span", { class: "soft" }, "no verdict yet"),
      last ? time(last.decided) : "",
      make("span", { class: "soft" }, device.open ? `${device.open} open` : "")),
    last ? make("div", {}, link(last.challenge, `${last.verdict}`)) : "",
    make("form", { class: "ask", onsubmit: ask },
      make("label", { for: field.id }, "operation"), field, make("button", { "aria-label": `Challenge device ${device.id}` }, "Challenge")));
}

const link = (challenge, text) => make("button", { class: "link", type: "button", onclick: guarded(() => show(challenge, true)) }, text);

function challengeRow(told) {
  return make("li", { "data-challenge": told.challenge },
    make("div", { class: "row-head" },
      link(told.challenge, `challenge ${told.challenge}`),
      badge(told.state),
      make("span", { class: "soft" }, `device ${told.device}, operation ${told.operation}, `, time(told.decided ?? told.asked))));
}

// Puts new rows in the place of the old ones, but for a row that somebody is writing in.
function fill(list, key, rows) {
  const held = document.activeElement?.closest("li")?.dataset[key];
  const field = document.activeElement;
  const kept = field && list.contains(field) ? field.closest("li") : null;
  const focused = kept ? [...kept.querySelectorAll("button, input")].indexOf(field) : -1;
  const value = field?.tagName === "INPUT" ? field.value : null;
  list.replaceChildren(...rows);
  const again = kept && rows.find((row) => row.dataset[key] === held);
  if (!again) return;
  const fields = again.querySelectorAll("button, input");
  const target = fields[Math.min(focused + (fields.length - kept.querySelectorAll("button, input").length), fields.length - 1)];
  if (value !== null && target.tagName === "INPUT") target.value = value;
  target.focus();
}

// The news are for a screen reader too.
function announce(devices) {
  for (const { id, last } of devices) {
    const decided = last && `${last.challenge} ${last.decided}`;
    if (decided && page.decided.get(id) !== undefined && page.decided.get(id) !== decided) find("news").textContent = `device ${id}: ${last.words}`;
    page.decided.set(id, decided);
  }
}

async function lists() {
  const [devices, challenges, counts] = await Promise.all([
    get("/devices"), get(`/challenges?only_open=${find("open").checked}`), get("/counts")]);
  fill(find("devices"), "device", devices.map(deviceRow));
  fill(find("challenges"), "challenge", challenges.map(challengeRow));
  find("no-devices").hidden = devices.length > 0;
  find("no-challenges").hidden = challenges.length > 0;
  const refused = Object.entries(counts).map(([kind, count]) => `${count} ${kind}`).join(", ");
  find("counts").textContent = refused ? `Refused answers, by kind: ${refused}.` : "No answer was refused.";
  announce(devices);
}

function facts(told) {
  const rows = [
    ["Verdict", told.verdict ? make("code", {}, told.verdict) : "none yet"],
    ["State", badge(told.state)],
    ["Device", `${told.device}, operation ${told.operation}`],
    ["Asked", time(told.asked)],
    ["Frame", make("code", {}, told.frame)],
    ["Image", make("code", {}, told.image)],
  ];
  if (told.decided) rows.splice(4, 0, ["Decided", time(told.decided)]);
  for (const { cause, count, time: at } of told.refusals) {
    rows.push(["Refused", make("span", {}, make("code", {}, cause), count > 1 ? `, ${count} times, last ` : ", ", time(at))]);
  }
  find("detail-facts").replaceChildren(...rows.flatMap(([name, value]) => [make("dt", {}, name), make("dd", {}, value)]));
}

// Shows a challenge, unless another one is to be shown by the time that it is told.
async function show(challenge, move) {
  page.shown = challenge;
  const told = await get(`/challenges/${challenge}`);
  const lines = told.state === "accepted" ? (await (await call("GET", `/challenges/${challenge}/path`)).text()).trimEnd().split("\n") : [];
  if (page.shown !== challenge) return;
  find("detail").hidden = false;
  find("detail-title").textContent = `Challenge ${challenge}`;
  find("detail-words").textContent = told.words;
  find("detail-words").className = `words ${told.state}`;
  facts(told);
  showPath(lines);
  if (move) find("detail").focus();
  await showPicture(told);
}

function showPath(lines) {
  find("detail-path").hidden = !lines.length;
  find("path").replaceChildren(...lines.slice(0, PATH_LINES).map((line) => make("li", {}, line)));
  find("path-more").textContent = lines.length > PATH_LINES ? `The first ${PATH_LINES} of ${lines.length} lines.` : "";
}

async function showPicture(told) {
  const wanted = `${told.challenge} ${told.verdict}`;
  if (page.picture === wanted) return;
  page.picture = wanted;
  const image = find("picture");
  if (image.src) URL.revokeObjectURL(image.src);
  image.removeAttribute("src");
  find("detail-picture").hidden = true;
  if (!told.picture) return;
  try {
    const drawn = await (await call("GET", told.picture)).blob();
    if (page.picture !== wanted) return;
    image.src = URL.createObjectURL(drawn);
    image.alt = `The control flow of the image, titled ${told.verdict}`;
    find("detail-picture").hidden = false;
  } catch (failure) {
    if (failure.status !== 404) throw failure;
  }
}

const pause = (seconds) => new Promise((done) => setTimeout(done, 1000 * seconds));

// Waits for changes and shows them, until the token is refused.
async function follow() {
  for (;;) {
    try {
      const { number } = await get(`/changes?after=${page.change}`);
      if (number !== page.change) {
        page.change = number;
        await lists();
        if (page.shown) await show(page.shown, false);
      }
      find("link").textContent = "connected: new verdicts appear by themselves";
      await pause(0.2);
    } catch (failure) {
      if (failure.status === 401) return enter("The token isn't that of this service.");
      find("link").textContent = "not connected: trying again";
      page.change = -1;
      await pause(2);
    }
  }
}

function enter(text) {
  page.token = "";
  tell(text);
  find("entry").hidden = false;
  find("content").hidden = true;
  find("link").textContent = "not connected";
  find("token").focus();
}

async function open(token) {
  page.token = token;
  page.change = -1;
  try {
    await lists();
  } catch (failure) {
    return enter(failure.status === 401 ? "The token isn't that of this service." : failure.message);
  }
  tell("");
  history.replaceState(null, "", `#${token}`);
  find("entry").hidden = true;
  find("content").hidden = false;
  follow();
}

async function enrol() {
  const image = await find("enrol-image").files[0].text();
  await call("POST", "/devices", { id: Number(find("enrol-id").value), image, key: find("enrol-key").value });
  find("enrol").reset();
}

find("entry").addEventListener("submit", guarded(() => open(find("token").value.trim())));
find("enrol").addEventListener("submit", guarded(enrol));
find("open").addEventListener("change", guarded(lists));
if (location.hash.length > 1) open(decodeURIComponent(location.hash.slice(1)));
else enter("");
