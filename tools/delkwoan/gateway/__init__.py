"""A gateway in front of a `serve`: the command compress-gateway, a page and an API over HTTP for members and the operator.

    delkwoan.gateway.calls       what can be called, and the line of docs/PROTOCOL.md that each call is
    delkwoan.gateway.fields      a reply as fields
    delkwoan.gateway.document    the calls as an OpenAPI document, and as a page
    delkwoan.gateway.connection  a connection that has a seat, and lines that go ahead over it
    delkwoan.gateway.seats       the connections, and who gets which
    delkwoan.gateway.sessions    who is signed in
    delkwoan.gateway.guesses     how many keys of a name are tried
    delkwoan.gateway.origin      what pages of other origins may do, and the headers of each answer
    delkwoan.gateway.kept        calls with an Idempotency-Key, in SQLite
    delkwoan.gateway.doubt       which refusals leave open whether a change was made
    delkwoan.gateway.desk        a call's lines: sent once, or looked for where their replies were lost
    delkwoan.gateway.requests    a request's body, session and words
    delkwoan.gateway.own         the calls that are no line, as the sign-in
    delkwoan.gateway.server      the routes, and what becomes of each request
    delkwoan.gateway.page        the page's files, and what a browser lets them do
    delkwoan.gateway.watch       the history's length, told to all pages by one poll
    delkwoan.gateway.verdict     a member's own test over a page's texts, the roster and the votes
    delkwoan.gateway.votes       who has voted through the gateway
    delkwoan.gateway.silence     an end for peers that say or take nothing
    delkwoan.gateway.follower    how full the journal is, by its file
    delkwoan.gateway.metrics     figures for Prometheus
    delkwoan.gateway.answers     what is answered, also to what can't be served
    delkwoan.gateway.parts       what the routes work with
    delkwoan.gateway.serving     all of these together
    delkwoan.gateway.command     the command

It wants Debian's python3-starlette, python3-uvicorn and python3-prometheus-client, which nothing else of the package does;
with python3-websockets its page listens.
"""
