"""Requests of HTTP, whole, cut and drawn, and pages that browsers load."""
import string


# The methods of RFC 9110, PATCH and PRI, and what may come behind them. A method is any token, so others are drawn of a
# token's letters.
METHODS = [b"GET ", b"HEAD ", b"POST ", b"PUT ", b"DELETE ", b"CONNECT ", b"OPTIONS ", b"TRACE ", b"PATCH ", b"PRI "]


REST = b"/ HTTP/1.1\r\nHost: 127.0.0.1\r\nContent-Type: text/plain\r\n\r\n\n1 CLOCK 1000\n2 STATE 0\n"


TOKEN = b"!#$%&'*+-.^_`|~" + string.digits.encode() + string.ascii_letters.encode()


# First lines that are no such request, and the reply to each. Behind a line that is refused the connection goes on.
NEAR = [
    b"GETS /",
    b"GET",
    b"get /",
    b" GET /",
    b"HEADER x",
    b"PRIO 0 1",
    b"POST",
    b"HTTP/1.1",
    b"NAQ /HTTP/1.1",
    b"NAQ / HTTP/11",
    b"NAQ / HTTP/1.1.",
    b"NAQ / HTTP/1.x",
    b"NAQ / HTTP/1.10",
    b"NAQ / http/1.1",
    b"NAQ / HTTP /1.1",
]


# A page whose name leads to the server's port once the page is loaded.
REBOUND = b"""<!doctype html><title>page</title><script>
setInterval(() => fetch('/', {method: 'NAQ', body: '\\n1 ACK 0\\n2 STATE 0\\n'}).catch(() => 0), 200);
</script>"""


PAGE = """<!doctype html><title>page</title><form id=f method=post enctype=text/plain action=http://127.0.0.1:{port}/><input name=x></form><script>
const body = '\\n1 ACK 0\\n1 CLOCK 1000\\n1 VAL 0 900\\n';
for (let slot = 0; slot < 18; slot++) {{
    const at = '127.0.0.1:' + ({port} + slot) + '/';
    for (const method of ['GET', 'HEAD', 'POST']) {{
        fetch('http://' + at, {{method, mode: 'no-cors', body: method === 'POST' ? body : undefined}}).catch(() => 0);
    }}
    try {{ new WebSocket('ws://' + at).onopen = event => event.target.send(body); }} catch (error) {{ }}
}}
document.querySelector('input').value = body;
setTimeout(() => document.getElementById('f').submit(), 1500);
</script>"""
