"""A page of another origin, and what it tries against the alarm list."""
import http.client
import http.server
import re
import threading
import time
from lib.browsers import List, Page, Plant
from lib.program import check


# What a page of another origin tries at the list, each with how it ended.
ATTACK = """<!doctype html><meta charset=utf-8><title>other</title><body><script>
const place = 'PLACE', ended = {}, order = JSON.stringify({era: 'ERA', word: 'ACK', alarms: [[NUMBER, STAMP]]});
const keep = (name, promise) => promise.then(async reply => ended[name] = reply.type + ' ' + reply.status + ' ' + (await reply.text()).slice(0, 40), error => ended[name] = 'refused');
for (const path of ['', 'stream', 'do', 'sign-in', 'alarms.js']) {
    keep('get ' + path, fetch(place + path, {credentials: 'include'}));
    keep('blind ' + path, fetch(place + path, {credentials: 'include', mode: 'no-cors'}));
}
keep('post', fetch(place + 'do', {method: 'POST', credentials: 'include', headers: {'Content-Type': 'application/json', 'X-Alarms-Key': 'KEY'}, body: order}));
keep('post simple', fetch(place + 'do', {method: 'POST', credentials: 'include', mode: 'no-cors', headers: {'Content-Type': 'text/plain'}, body: order}));
keep('post beacon', Promise.resolve({type: 'beacon', status: navigator.sendBeacon(place + 'do', new Blob([order], {type: 'text/plain'})), text: async () => ''}));
const source = new EventSource(place + 'stream', {withCredentials: true});
source.onerror = () => ended.events = 'refused';
source.addEventListener('hello', event => ended.events = event.data);
const socket = new WebSocket(place.replace('http', 'ws') + 'do');
socket.onerror = () => ended.socket = 'refused';
socket.onopen = () => { ended.socket = 'open'; socket.send(order); };
for (const [tag, name, path] of [['script', 'src', 'stream'], ['script', 'src', 'alarms.js'], ['img', 'src', 'icon.svg'], ['iframe', 'src', '']]) {
    const one = document.createElement(tag);
    one[name] = place + path;
    one.onload = () => ended[tag + ' ' + path] = 'loaded';
    one.onerror = () => ended[tag + ' ' + path] = 'refused';
    document.body.append(one);
}
const form = document.createElement('form');
Object.assign(form, {method: 'post', enctype: 'text/plain', action: place + 'do', target: 'shown'});
form.innerHTML = '<input name=x>';
form.firstChild.name = order.slice(0, -1) + ',"y":"';
form.firstChild.value = '"}';
const frame = document.createElement('iframe');
frame.name = 'shown';
document.body.append(frame, form);
form.submit();
window.ended = ended;
</script>"""


# How each of these may end for that page: an opaque reply says nothing to it.
ENDED = re.compile(r"refused|opaque 0 |beacon (true|false) |loaded")


class Attacker(http.server.BaseHTTPRequestHandler):
    """A page of another origin."""

    page = ""

    def do_GET(self) -> None:
        self.send_response(200)
        self.send_header("Content-Type", "text/html")
        self.end_headers()
        self.wfile.write(self.page.encode())

    def log_message(self, *_: object) -> None:
        pass


def attacks(plant: Plant, page: Page, host: str, listed: List) -> int:
    """Opens a page of another origin: another port of the same host, which is the same site, and another host."""
    number = plant.numbers["TI-101"]
    values = {
        "PLACE": listed.place,
        "ERA": page.era if page.driver.current_url == listed.place else "0",
        "NUMBER": str(number),
        "STAMP": "1",
        "KEY": "guess",
    }
    text = ATTACK
    for name, value in values.items():
        text = text.replace(name, value)
    handler = type("Attacker", (Attacker,), {"page": text})
    server = http.server.ThreadingHTTPServer(("127.0.0.1", 0), handler)
    threading.Thread(target=server.serve_forever, daemon=True).start()
    page.driver.get(f"http://{host}:{server.server_port}/")
    wanted = 10 + 3 + 2 + 4
    page.until("each way's end", lambda: len(page.js("return Object.keys(window.ended)")) >= wanted - 1)
    time.sleep(1)
    ended = page.js("return window.ended")
    wrong = {name: how for name, how in ended.items() if not ENDED.fullmatch(how)}
    check(
        not wrong and ended["events"] == ended["socket"] == ended["post"] == "refused",
        "another origin had",
        wrong or ended,
    )
    check(
        ended["script stream"] == ended["script alarms.js"] == "refused",
        "a script of the list runs in another page",
        ended,
    )
    server.shutdown()
    page.driver.get(listed.place)
    page.shows("TI-101", "Unack")
    return len(ended) + 1


def runs_no_script_of_a_page(page: Page) -> None:
    """An inline script, an inline style and a script of elsewhere do nothing, by the page's policy."""
    page.js(
        """const one = document.createElement('script'); one.textContent = 'window.evil = 1'; document.body.append(one);
        const other = document.createElement('div'); other.innerHTML = '<img src=x onerror="window.evil = 2"><p id=styled style="color: red">x</p>'; document.body.append(other);"""
    )
    time.sleep(0.3)
    check(page.js("return window.evil") is None, "an inline script ran")
    check(
        page.js("return getComputedStyle(document.getElementById('styled')).color") != "rgb(255, 0, 0)",
        "an inline style holds",
    )
    # and what the other origin's page was refused goes with it
    said = [entry["message"] for entry in page.driver.get_log("browser")]
    check(sum("Content Security Policy" in line for line in said) >= 3, "the policy refused", said)
