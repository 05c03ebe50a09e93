#!/usr/bin/env python3
"""An independent reading of what the store answers, for programs that check jsonapid from outside: a plain Python store that answers requests one
after another. It was written from the specification and shares nothing with the crates; it knows no framing, no negotiation and no limits of HTTP."""
import json, base64, re
from urllib.parse import unquote_to_bytes

EXT = 'application/vnd.api+json;ext="https://jsonapi.org/ext/atomic"'
PAGE = 'application/vnd.api+json;profile="https://jsonapi.org/profiles/ethanresnick/cursor-pagination/"'
PLAIN = "application/vnd.api+json"
TABLE = {}
for (
    l
) in """bad-target 400 Malformed request target|not-found 404 Not found|method-not-allowed 405 Method not allowed|unsupported-media-type 415 Unsupported media type|not-acceptable 406 Not acceptable|unknown-parameter 400 Unknown parameter|repeated-parameter 400 Repeated parameter|bad-include 400 Unsupported include|bad-fields 400 Unsupported fields|bad-sort 400 Unsupported sort|bad-page-size 400 Unsupported page size|bad-cursor 400 Malformed cursor|bad-json 400 Malformed JSON|bad-document 400 Malformed document|too-many-operations 400 Too many operations|type-mismatch 409 Type does not match|id-mismatch 409 Id does not match|client-id-unsupported 403 Client ids not supported|bad-id 422 Malformed id|reserved-id 403 Reserved id|unknown-field 422 Unknown field|bad-value 422 Unsupported value|missing-field 422 Missing field|wrong-target 422 Wrong target type|lid-bound 409 Local id already bound|unknown-lid 404 Unknown local id|id-exists 409 Id already exists|ids-ended 403 No ids left|related-not-found 404 Related resource not found|too-many-members 422 Too many members|still-referenced 409 Resource is still referenced""".split(
    "|"
):
    c, st, t = l.split(" ", 2)
    TABLE[c] = (int(st), t)
REASON = {
    200: "OK",
    201: "Created",
    204: "No Content",
    400: "Bad Request",
    403: "Forbidden",
    404: "Not Found",
    405: "Method Not Allowed",
    406: "Not Acceptable",
    409: "Conflict",
    415: "Unsupported Media Type",
    422: "Unprocessable Content",
}


class Ref(Exception):
    def __init__(s, code, src=None, allow=None):
        s.code = code
        s.src = src
        s.allow = allow


def ptr(p):
    return ("pointer", p)


def par(p):
    return ("parameter", p)


def dumps(x):
    return json.dumps(x, separators=(",", ":"), ensure_ascii=False, sort_keys=True)


def text(st, ct, body, loc=None, allow=None, head=False):
    s = "HTTP/1.1 %d %s\r\nVary: Accept\r\n" % (st, REASON[st])
    if ct:
        s += "Content-Type: %s\r\nContent-Length: %d\r\n" % (ct, len(body.encode()))
    if loc:
        s += "Location: %s\r\n" % loc
    if allow:
        s += "Allow: %s\r\n" % allow
    s += "\r\n"
    if ct and not head:
        s += body
    return s


BLOG = json.loads(
    '{"types":{"articles":{"attributes":{"draft":{"type":"bool","nullable":true},"title":{"type":"text"},"views":{"type":"int","default":0}},"relationships":{"author":{"kind":"one","target":"people"},"comments":{"kind":"many","target":"comments"}}},"comments":{"attributes":{"text":{"type":"text"}},"relationships":{"author":{"kind":"one","target":"people"}}},"people":{"client-ids":true,"attributes":{"name":{"type":"text"}}}}}'
)
NOTES = json.loads('{"types":{"notes":{"attributes":{"text":{"type":"text"}}}}}')
isid = lambda s: re.fullmatch(r"[A-Za-z0-9_-]{1,64}", s) is not None
idkey = lambda i: (len(i), i)
NOID = object()


class Store:
    def __init__(s, schema):
        s.T = {k: {"cid": v.get("client-ids", False), "attr": v.get("attributes", {}), "rel": v.get("relationships", {})} for k, v in schema["types"].items()}
        s.rows = {}
        s.next = {k: 1 for k in s.T}

    # ---- documents written
    def ident(s, t, i):
        return {"id": i, "type": t}

    def linkage(s, t, v):
        return (None if v is None else s.ident(t, v)) if not isinstance(v, list) else [s.ident(t, i) for i in v]

    def res(s, key, fields={}):
        t, i = key
        row = s.rows[key]
        T = s.T[t]
        f = fields.get(t)
        show = lambda n: f is None or n in f
        d = {"id": i, "type": t, "links": {"self": "/%s/%s" % (t, i)}}
        a = {n: row[n] for n in T["attr"] if show(n)}
        r = {
            n: {"data": s.linkage(T["rel"][n]["target"], row[n]), "links": {"related": "/%s/%s/%s" % (t, i, n), "self": "/%s/%s/relationships/%s" % (t, i, n)}}
            for n in T["rel"]
            if show(n)
        }
        if a:
            d["attributes"] = a
        if r:
            d["relationships"] = r
        return d

    # ---- reading documents
    def value(s, spec, v):
        if v is None:
            return spec.get("nullable", False)
        k = spec["type"]
        if k == "bool":
            return isinstance(v, bool)
        if k == "int":
            return isinstance(v, int) and not isinstance(v, bool) and -(2**63) <= v < 2**63
        return isinstance(v, str) and len(v.encode()) <= 65536

    def identifier(s, x, target, at):
        if not isinstance(x, dict) or not isinstance(x.get("type"), str) or (("id" in x) == ("lid" in x)) or not isinstance(x.get("id", x.get("lid")), str):
            raise Ref("bad-document", ptr(at))
        if x["type"] != target:
            raise Ref("wrong-target", ptr(at + "/type"))
        if "id" in x:
            if not isid(x["id"]):
                raise Ref("related-not-found", ptr(at + "/id"))
            return ("id", x["id"], at + "/id")
        return ("lid", x["lid"], at + "/lid")

    def read_linkage(s, x, rel, at):
        if rel["kind"] == "one":
            return None if x is None else s.identifier(x, rel["target"], at)
        if not isinstance(x, list):
            raise Ref("bad-document", ptr(at))
        return [s.identifier(y, rel["target"], "%s/%d" % (at, n)) for n, y in enumerate(x)]

    def fields(s, d, t, at, new):
        T = s.T[t]
        vals = {}
        links = {}
        if "attributes" in d:
            a = d["attributes"]
            if not isinstance(a, dict):
                raise Ref("bad-document", ptr(at + "/attributes"))
            for n in sorted(a, key=lambda x: x.encode()):
                if n.startswith("@"):
                    continue
                if n not in T["attr"]:
                    raise Ref("unknown-field", ptr(at + "/attributes/" + n))
                if not s.value(T["attr"][n], a[n]):
                    raise Ref("bad-value", ptr(at + "/attributes/" + n))
                vals[n] = a[n]
        if "relationships" in d:
            r = d["relationships"]
            if not isinstance(r, dict):
                raise Ref("bad-document", ptr(at + "/relationships"))
            for n in sorted(r, key=lambda x: x.encode()):
                if n.startswith("@"):
                    continue
                p = at + "/relationships/" + n
                if n not in T["rel"]:
                    raise Ref("unknown-field", ptr(p))
                if not isinstance(r[n], dict) or "data" not in r[n]:
                    raise Ref("bad-document", ptr(p))
                links[n] = (s.read_linkage(r[n]["data"], T["rel"][n], p + "/data"), p + "/data")
        if new:
            for n in sorted(T["attr"]):
                sp = T["attr"][n]
                if n not in vals:
                    if "default" in sp:
                        vals[n] = sp["default"]
                    elif sp.get("nullable"):
                        vals[n] = None
                    else:
                        raise Ref("missing-field", ptr(at))
        return vals, links

    def typed(s, d, at, t, free=False):
        if not isinstance(d, dict):
            raise Ref("bad-document", ptr(at))
        if "type" not in d:
            raise Ref("bad-document", ptr(at))
        if not isinstance(d["type"], str):
            raise Ref("bad-document", ptr(at + "/type"))
        if t is None:
            if d["type"] not in s.T:
                raise Ref("not-found", ptr(at + "/type"))
            return d["type"]
        if d["type"] != t:
            raise Ref("type-mismatch", ptr(at + "/type"))
        return t

    def read_new(s, d, t, at):
        t = s.typed(d, at, t)
        cid = None
        lid = None
        if "id" in d:
            if not isinstance(d["id"], str):
                raise Ref("bad-document", ptr(at + "/id"))
            if not s.T[t]["cid"]:
                raise Ref("client-id-unsupported", ptr(at + "/id"))
            if not isid(d["id"]):
                raise Ref("bad-id", ptr(at + "/id"))
            if re.fullmatch("[0-9]+", d["id"]):
                raise Ref("reserved-id", ptr(at + "/id"))
            cid = d["id"]
        if "lid" in d:
            if not isinstance(d["lid"], str) or not 1 <= len(d["lid"].encode()) <= 64:
                raise Ref("bad-document", ptr(at + "/lid"))
            lid = d["lid"]
        v, l = s.fields(d, t, at, True)
        return ("create", t, cid, lid, v, l, at)

    def read_update(s, d, who, at, inlist=False):
        t = s.typed(d, at, who[0] if who else None)
        if inlist and "id" in d and "lid" in d:
            raise Ref("bad-document", ptr(at))
        if inlist and "lid" in d:
            if not isinstance(d["lid"], str):
                raise Ref("bad-document", ptr(at + "/lid"))
            if who:
                if who[1] != ("lid", d["lid"]):
                    raise Ref("id-mismatch", ptr(at + "/lid"))
            else:
                who = (t, ("lid", d["lid"]), at)
        else:
            if "id" not in d:
                raise Ref("bad-document", ptr(at))
            if not isinstance(d["id"], str):
                raise Ref("bad-document", ptr(at + "/id"))
            if who:
                if who[1] != ("id", d["id"]):
                    raise Ref("id-mismatch", ptr(at + "/id"))
            else:
                if not isid(d["id"]):
                    raise Ref("not-found", ptr(at + "/id"))
                who = (t, ("id", d["id"]), at)
        v, l = s.fields(d, t, at, False)
        return ("update", who, v, l)

    # ---- running
    def member(s, m, target, lids):
        kind, name, at = m
        if kind == "lid":
            if (target, name) not in lids:
                raise Ref("unknown-lid", ptr(at))
            i = lids[target, name]
        else:
            i = name
        if (target, i) not in s.rows:
            raise Ref("related-not-found", ptr(at))
        return i

    def setlink(s, key, n, val, at, lids, had=None):
        rel = s.T[key[0]]["rel"][n]
        if rel["kind"] == "one":
            s.rows[key][n] = None if val is None else s.member(val, rel["target"], lids)
            return
        out = list(had or [])
        for m in val:
            i = s.member(m, rel["target"], lids)
            if i not in out:
                out.append(i)
        if len(out) > 1000:
            raise Ref("too-many-members", ptr(at))
        s.rows[key][n] = out

    def target(s, who, lids, inlist):
        t, (k, name), at = who
        if k == "lid":
            if (t, name) not in lids:
                raise Ref("unknown-lid", ptr(at + "/lid"))
            name = lids[t, name]
        if (t, name) not in s.rows:
            raise Ref("not-found", ptr(at) if inlist else None)
        return (t, name)

    def run(s, ops, inlist):
        import copy

        save = (copy.deepcopy(s.rows), dict(s.next))
        lids = {}
        out = []
        try:
            for op in ops:
                if op[0] == "create":
                    _, t, cid, lid, v, l, at = op
                    if lid is not None and (t, lid) in lids:
                        raise Ref("lid-bound", ptr(at + "/lid"))
                    if cid is not None:
                        if (t, cid) in s.rows:
                            raise Ref("id-exists", ptr(at + "/id"))
                        i = cid
                    else:
                        i = str(s.next[t])
                        s.next[t] += 1
                    if lid is not None:
                        lids[t, lid] = i
                    key = (t, i)
                    row = dict(v)
                    for n, r in s.T[t]["rel"].items():
                        row[n] = None if r["kind"] == "one" else []
                    s.rows[key] = row
                    for n in sorted(l):
                        s.setlink(key, n, l[n][0], l[n][1], lids)
                    out.append(("create", key, s.res(key)))
                else:
                    key = s.target(op[1], lids, inlist)
                    if op[0] == "update":
                        s.rows[key].update(op[2])
                        for n in sorted(op[3]):
                            s.setlink(key, n, op[3][n][0], op[3][n][1], lids)
                        out.append(("update", key, s.res(key)))
                    elif op[0] == "remove":
                        for k, row in s.rows.items():
                            if k == key:
                                continue
                            for n, r in s.T[k[0]]["rel"].items():
                                if r["target"] == key[0] and (row[n] == key[1] if r["kind"] == "one" else key[1] in row[n]):
                                    raise Ref("still-referenced", ptr(op[1][2]) if inlist else None)
                        del s.rows[key]
                        out.append(("x",))
                    else:
                        n, val, at = op[2], op[3], op[4]
                        rel = s.T[key[0]]["rel"][n]
                        if op[0] == "set":
                            s.setlink(key, n, val, at, lids)
                        elif op[0] == "addl":
                            s.setlink(key, n, val, at, lids, s.rows[key][n])
                        else:
                            drop = []
                            for k, name, p in val:
                                if k == "lid":
                                    if (rel["target"], name) not in lids:
                                        raise Ref("unknown-lid", ptr(p))
                                    name = lids[rel["target"], name]
                                drop.append(name)
                            s.rows[key][n] = [i for i in s.rows[key][n] if i not in drop]
                        out.append(("x",))
            return out
        except Ref:
            s.rows, s.next = save
            raise

    # ---- targets
    def route(s, path):
        seg = path.split("/")[1:]
        if path == "/operations":
            return ("ops",)
        dec = lambda x: unquote_to_bytes(x).decode("utf8")
        try:
            d = [x if n == 2 and x == "relationships" and len(seg) == 4 else dec(x) for n, x in enumerate(seg)]
        except UnicodeDecodeError:
            raise Ref("not-found")
        if d[0] not in s.T:
            raise Ref("not-found")
        if len(d) == 1:
            return ("coll", d[0])
        if not isid(d[1]):
            raise Ref("not-found")
        key = (d[0], d[1])
        if len(d) == 2:
            return ("res", key)
        if len(d) == 3 and d[2] in s.T[d[0]]["rel"]:
            return ("rel", key, d[2])
        if len(d) == 4 and d[2] == "relationships" and d[3] in s.T[d[0]]["rel"]:
            return ("link", key, d[3])
        raise Ref("not-found")

    def allow(s, t):
        if t[0] == "ops":
            return "POST"
        if t[0] == "coll":
            return "GET, HEAD, POST"
        if t[0] == "res":
            return "GET, HEAD, PATCH, DELETE"
        if t[0] == "rel":
            return "GET, HEAD"
        return "GET, HEAD, PATCH" if s.T[t[1][0]]["rel"][t[2]]["kind"] == "one" else "GET, HEAD, PATCH, POST, DELETE"

    def many(s, t):
        return t[0] == "coll" or (t[0] == "rel" and s.T[t[1][0]]["rel"][t[2]]["kind"] == "many")

    def prim(s, t):
        return t[1] if t[0] == "coll" else t[1][0] if t[0] == "res" else s.T[t[1][0]]["rel"][t[2]]["target"]

    def pairs(s, q):
        out = []
        for p in q.split("&"):
            if p == "":
                continue
            n, _, v = p.partition("=")
            d = lambda x: unquote_to_bytes(x.replace("+", " ")).decode("utf8", "replace")
            out.append((d(n), d(v)))
        return out

    def query(s, t, q):
        Q = {"include": None, "fields": {}, "sort": [], "size": 50, "after": None, "before": None, "pairs": []}
        seen = set()
        cur = {}
        for n, v in s.pairs(q):
            known = (
                (t[0] != "link" and t[0] != "ops")
                and (n == "include" or re.fullmatch(r"fields\[.*\]", n, re.S))
                or (s.many(t) and n in ("sort", "page[size]", "page[after]", "page[before]"))
            )
            if not known:
                raise Ref("unknown-parameter", par(n))
            if n in seen:
                raise Ref("repeated-parameter", par(n))
            seen.add(n)
            if n == "include":
                paths = []
                if v != "":
                    ps = v.split(",")
                    if len(ps) > 16:
                        raise Ref("bad-include", par(n))
                    for p in ps:
                        names = p.split(".")
                        if len(names) > 8:
                            raise Ref("bad-include", par(n))
                        at = s.prim(t)
                        path = []
                        for x in names:
                            if x not in s.T[at]["rel"]:
                                raise Ref("bad-include", par(n))
                            path.append(x)
                            at = s.T[at]["rel"][x]["target"]
                        paths.append(path)
                Q["include"] = paths
            elif n.startswith("fields["):
                ty = n[7:-1]
                if ty not in s.T:
                    raise Ref("bad-fields", par(n))
                names = [] if v == "" else v.split(",")
                if any(x not in s.T[ty]["attr"] and x not in s.T[ty]["rel"] for x in names):
                    raise Ref("bad-fields", par(n))
                Q["fields"][ty] = names
            elif n == "sort":
                ks = v.split(",")
                if len(ks) > 8:
                    raise Ref("bad-sort", par(n))
                out = []
                for k in ks:
                    desc = k.startswith("-")
                    k = k[1:] if desc else k
                    if k not in s.T[s.prim(t)]["attr"] or k in [o[0] for o in out]:
                        raise Ref("bad-sort", par(n))
                    out.append((k, desc))
                Q["sort"] = out
            elif n == "page[size]":
                if not re.fullmatch("[0-9]{1,9}", v) or not 1 <= int(v) <= 1000:
                    raise Ref("bad-page-size", par(n))
                Q["size"] = int(v)
            else:
                cur[n] = v
            Q["pairs"].append((n, v))
        for n in ("page[after]", "page[before]"):
            if n in cur:
                Q[n[5:-1]] = s.cursor(t, Q["sort"], cur[n], n)
        return Q

    def cursor(s, t, sort, v, n):
        bad = Ref("bad-cursor", par(n))
        try:
            a = json.loads(base64.urlsafe_b64decode((v + "=" * (-len(v) % 4)).encode("ascii")).decode())
        except Exception:
            raise bad
        if not isinstance(a, list) or len(a) != len(sort) + 1 or not isinstance(a[-1], str) or not isid(a[-1]):
            raise bad
        for (k, _), x in zip(sort, a):
            if not s.value(s.T[s.prim(t)]["attr"][k], x):
                raise bad
        if s.spell(a) != v:
            raise bad
        return a

    def spell(s, a):
        return base64.urlsafe_b64encode(json.dumps(a, separators=(",", ":"), ensure_ascii=False).encode()).decode().rstrip("=")

    def place(s, key, sort):
        return [s.rows[key][k] for k, _ in sort] + [key[1]]

    def cmp(s, sort, a, b):
        for (k, desc), x, y in zip(sort, a, b):
            r = lambda v: (0,) if v is None else (1, v if not isinstance(v, str) else v.encode())
            if r(x) != r(y):
                return (1 if r(x) > r(y) else -1) * (-1 if desc else 1)
        p, q = idkey(a[-1]), idkey(b[-1])
        return (p > q) - (p < q)

    def form(s, pairs):
        from urllib.parse import quote_plus

        e = lambda x: quote_plus(x, safe="*-._").replace("~", "%7E")
        return "&".join(e(n) + "=" + e(v) for n, v in pairs)

    def page(s, keys, Q, path):
        import functools

        sort = Q["sort"]
        pl = lambda k: s.place(k, sort)
        allk = sorted(keys, key=functools.cmp_to_key(lambda a, b: s.cmp(sort, pl(a), pl(b))))
        c = [k for k in allk if (Q["after"] is None or s.cmp(sort, pl(k), Q["after"]) > 0) and (Q["before"] is None or s.cmp(sort, pl(k), Q["before"]) < 0)]
        n = Q["size"]
        items = c[-n:] if (Q["before"] is not None and Q["after"] is None) else c[:n]
        trunc = Q["after"] is not None and Q["before"] is not None and len(c) > len(items)
        link = (
            lambda name, k: path
            + "?"
            + s.form(sorted([p for p in Q["pairs"] if p[0] not in ("page[after]", "page[before]")] + [(name, s.spell(pl(k)))], key=lambda p: p[0].encode()))
        )
        nx = pv = None
        if items:
            i, j = allk.index(items[0]), allk.index(items[-1])
            if j + 1 < len(allk):
                nx = link("page[after]", items[-1])
            if i > 0:
                pv = link("page[before]", items[0])
        return items, {"next": nx, "prev": pv}, trunc

    def included(s, prims, paths):
        out = set()
        for p in paths:
            cur = list(prims)
            for n in p:
                nxt = []
                for k in cur:
                    if n not in s.rows[k]:
                        continue
                    v = s.rows[k][n]
                    ty = s.T[k[0]]["rel"][n]["target"]
                    for i in [v] if isinstance(v, str) else v or []:
                        nxt.append((ty, i))
                out |= set(nxt)
                cur = nxt
        return sorted(out - set(prims), key=lambda k: (k[0].encode(), idkey(k[1])))

    def fetch(s, t, q):
        Q = s.query(t, q)
        if t[0] != "coll" and t[1] not in s.rows:
            raise Ref("not-found")
        if t[0] == "link":
            return PLAIN, {"data": s.linkage(s.T[t[1][0]]["rel"][t[2]]["target"], s.rows[t[1]][t[2]])}
        d = {}
        if s.many(t):
            if t[0] == "coll":
                keys = [k for k in s.rows if k[0] == t[1]]
                path = "/" + t[1]
            else:
                ty = s.prim(t)
                keys = [(ty, i) for i in s.rows[t[1]][t[2]]]
                path = "/%s/%s/%s" % (t[1][0], t[1][1], t[2])
            items, d["links"], trunc = s.page(keys, Q, path)
            d["data"] = [s.res(k, Q["fields"]) for k in items]
            if trunc:
                d["meta"] = {"page": {"rangeTruncated": True}}
            ct = PAGE
        else:
            k = t[1] if t[0] == "res" else (None if s.rows[t[1]][t[2]] is None else (s.prim(t), s.rows[t[1]][t[2]]))
            items = [k] if k else []
            d["data"] = s.res(k, Q["fields"]) if k else None
            ct = PLAIN
        if Q["include"] is not None:
            d["included"] = [s.res(k, Q["fields"]) for k in s.included(items, Q["include"])]
        return ct, d

    # ---- lists
    def op(s, o, at):
        bd = lambda p: Ref("bad-document", ptr(p))
        if not isinstance(o, dict):
            raise bd(at)
        if "op" not in o:
            raise bd(at)
        if o["op"] not in ("add", "update", "remove"):
            raise bd(at + "/op")
        w = o["op"]
        if "ref" in o and "href" in o:
            raise bd(at)
        if w == "remove" and "ref" not in o and "href" not in o:
            raise bd(at)
        tgt = None
        src = None
        if "ref" in o:
            src = at + "/ref"
            r = o["ref"]
            if (
                not isinstance(r, dict)
                or not isinstance(r.get("type"), str)
                or (("id" in r) == ("lid" in r))
                or not isinstance(r.get("id", r.get("lid")), str)
                or ("relationship" in r and not isinstance(r["relationship"], str))
            ):
                raise bd(src)
            if r["type"] not in s.T:
                raise Ref("not-found", ptr(src + "/type"))
            if "id" in r and not isid(r["id"]):
                raise Ref("not-found", ptr(src + "/id"))
            if "relationship" in r and r["relationship"] not in s.T[r["type"]]["rel"]:
                raise Ref("not-found", ptr(src + "/relationship"))
            who = (r["type"], ("id", r["id"]) if "id" in r else ("lid", r["lid"]), src)
            tgt = ("link", who, r["relationship"]) if "relationship" in r else ("res", who)
        elif "href" in o:
            src = at + "/href"
            if not isinstance(o["href"], str):
                raise bd(src)
            if not o["href"].startswith("/") or "?" in o["href"]:
                raise Ref("not-found", ptr(src))
            try:
                t = s.route(o["href"])
            except Ref:
                raise Ref("not-found", ptr(src))
            if t[0] == "coll":
                tgt = t
            elif t[0] == "res":
                tgt = ("res", (t[1][0], ("id", t[1][1]), src))
            elif t[0] == "link":
                tgt = ("link", (t[1][0], ("id", t[1][1]), src), t[2])
            else:
                tgt = ("other",)
        k = tgt[0] if tgt else None
        ok = {("add", None), ("add", "coll"), ("add", "link"), ("update", None), ("update", "res"), ("update", "link"), ("remove", "res"), ("remove", "link")}
        if (w, k) not in ok or (k == "coll" and "ref" in o):
            raise bd(src)
        one = k == "link" and s.T[tgt[1][0]]["rel"][tgt[2]]["kind"] == "one"
        if one and w != "update":
            raise bd(at + "/op")
        if (w, k) == ("remove", "res"):
            return ("remove", tgt[1])
        if "data" not in o:
            raise bd(at)
        d = o["data"]
        da = at + "/data"
        if w == "add" and k != "link":
            return s.read_new(d, tgt[1] if tgt else None, da)
        if k == "link":
            return ({"add": "addl", "update": "set", "remove": "drop"}[w], tgt[1], tgt[2], s.read_linkage(d, s.T[tgt[1][0]]["rel"][tgt[2]], da), da)
        return s.read_update(d, tgt[1] if tgt else None, da, True)

    def ops(s, d):
        bd = lambda p: Ref("bad-document", ptr(p))
        if not isinstance(d, dict):
            raise bd("")
        for n in ("atomic:results", "data", "included"):
            if n in d:
                raise bd("/" + n)
        if "atomic:operations" not in d:
            raise bd("")
        a = d["atomic:operations"]
        A = "/atomic:operations"
        if not isinstance(a, list) or not a:
            raise bd(A)
        if len(a) > 1000:
            raise Ref("too-many-operations", ptr(A))
        return [s.op(o, "%s/%d" % (A, n)) for n, o in enumerate(a)]

    def answer(s, method, target, body="", ct=PLAIN):
        head = method == "HEAD"
        try:
            path, _, q = target.partition("?")
            t = s.route(path)
            if method not in s.allow(t).split(", "):
                raise Ref("method-not-allowed", None, s.allow(t))
            if t[0] == "ops" and "ext=" not in ct:
                raise Ref("unsupported-media-type", ("header", "Content-Type"))
            if method in ("GET", "HEAD"):
                c, d = s.fetch(t, q)
                return text(200, c, dumps(d), head=head)
            ps = s.pairs(q)
            if ps:
                raise Ref("unknown-parameter", par(ps[0][0]))
            if method == "DELETE" and t[0] == "res":
                s.run([("remove", (t[1][0], ("id", t[1][1]), ""))], False)
                return text(204, None, "")
            try:
                d = json.loads(body)
            except ValueError:
                raise Ref("bad-json")
            if t[0] == "ops":
                out = s.run(s.ops(d), True)
                if not any(o[0] == "create" for o in out):
                    return text(204, None, "")
                return text(200, EXT, dumps({"atomic:results": [{"data": o[2]} if o[0] == "create" else {} for o in out]}))
            if not isinstance(d, dict) or "data" not in d:
                raise Ref("bad-document", ptr(""))
            d = d["data"]
            if t[0] == "coll":
                o = s.run([s.read_new(d, t[1], "/data")], False)[0]
                return text(201, PLAIN, dumps({"data": o[2]}), loc="/%s/%s" % o[1])
            who = (t[1][0], ("id", t[1][1]), "")
            if t[0] == "res":
                o = s.run([s.read_update(d, who, "/data")], False)[0]
                return text(200, PLAIN, dumps({"data": o[2]}))
            l = s.read_linkage(d, s.T[t[1][0]]["rel"][t[2]], "/data")
            s.run([({"POST": "addl", "PATCH": "set", "DELETE": "drop"}[method], who, t[2], l, "/data")], False)
            return text(204, None, "")
        except Ref as r:
            st, ti = TABLE[r.code]
            e = {"code": r.code, "status": str(st), "title": ti}
            if r.src:
                e["source"] = {r.src[0]: r.src[1]}
            return text(st, PLAIN, dumps({"errors": [e]}), allow=r.allow, head=head)


def request(method, target, body=None, ct=PLAIN):
    s = "%s %s HTTP/1.1\r\nHost: h\r\n" % (method, target)
    if body is not None:
        s += "Content-Type: %s\r\nContent-Length: %d\r\n" % (ct, len(body.encode()))
    return s + "\r\n" + (body or "")


def play(schema, reqs):
    st = Store(schema)
    i = ""
    o = ""
    for r in reqs:
        m, t = r[0], r[1]
        b = r[2] if len(r) > 2 else None
        ct = r[3] if len(r) > 3 else (EXT if t.startswith("/operations") else PLAIN)
        i += request(m, t, b, ct)
        o += st.answer(m, t, b or "", ct)
    return i, o
