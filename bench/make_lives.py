#!/usr/bin/env python3
"""make.py SEED > file              a random life file without `enter` lines (so 8 and 9 do not come)
make.py SEED DIR > DIR/file      a life of which some curves are `enter` lines; their texts are written to DIR/SEED-K.csv
make.py --many FIRST COUNT DIR   writes DIR/SEED.life (and its texts, as the form above) for COUNT seeds from FIRST on

The small model below only serves to tune readings (thresholds, ties, no answer); it decides nothing."""
import datetime
import os
import random
import sys

import make_imports as imports

D0 = datetime.date(2000, 1, 1)
LAST = 36524
MAX = 4294967295


def half(n, d):  # nearest, a half up
    if d < 0:
        n, d = -n, -d
    return (2 * n + d) // (2 * d)


class Life:
    def __init__(self, seed, directory):
        self.rng = random.Random("life %d" % seed)
        self.enter_rng = random.Random("enter %d" % seed)
        self.seed, self.directory, self.texts = seed, directory, 0
        self.enter_share = self.enter_rng.choice([0, 0, 0, 0.05, 0.2, 0.5])
        self.out = []
        # the model
        self.width = self.cap = self.span = 0
        self.floor, self.held = 0, {}
        self.kinds, self.w0, self.w1, self.feasts = 1, 8, 96, []
        self.res = []  # (choice, power)
        self.pods = []
        self.orders = []  # (day, q0, q1, direction, qr)
        self.settled = set()
        self.months = set()
        self.decl = []

    # ---- writing

    def emit(self, line):
        r = self.rng.random()
        if r < 0.01:
            self.out.append(b"")
        elif r < 0.015:
            self.out.append(b"# caf\xc3\xa9 \xff\r")
        elif r < 0.02:
            self.out.append(b"#")
        self.out.append(line.encode() if isinstance(line, str) else line)

    def day(self, d):
        if 0 <= d <= LAST and self.rng.random() < 0.5:
            return str(D0 + datetime.timedelta(d))
        return ("0" if self.rng.random() < 0.01 else "") + str(d)

    def quarter(self, q):
        if 0 <= q <= 96 and self.rng.random() < 0.4:
            return "%02d:%02d" % (q // 4, q % 4 * 15)
        return str(q)

    def values(self, curve):
        words, k = [], 0
        plain = self.rng.random() < 0.05
        while k < len(curve):
            n = 1
            while not plain and k + n < len(curve) and curve[k + n] == curve[k]:
                n += 1
            if n > 3 and self.rng.random() < 0.05:
                n = self.rng.randint(1, n)
            words.append(str(curve[k]) + ("*%d" % n if n > 1 or self.rng.random() < 0.02 else ""))
            if self.rng.random() < 0.002:
                words.append(self.rng.choice(["5*0", "E*0", "-7*0"]))
            k += n
        return " ".join(words)

    # ---- the model

    def kind(self, d):
        if d in self.feasts:
            return 4
        return {0: 2, 1: 4}.get(d % 7, 1)

    def fits(self, d):
        return 0 <= d <= LAST and self.kind(d) & self.kinds != 0

    def put(self, r, d, curve):
        if not 0 <= d <= LAST or r >= len(self.res) or d < self.floor or (r, d) in self.held:
            return
        f = max(self.floor, d - self.span + 1)
        if sum(1 for k in self.held if k[1] >= f) >= self.cap:
            return
        self.held[r, d] = curve
        self.floor = f
        self.held = {k: v for k, v in self.held.items() if k[1] >= f}

    def history(self, r, day, q0, q1):
        n = 15
        found = []
        ordered = {o[0] for o in self.orders}
        for d in range(day - 1, max(-1, day - 401), -1):
            c = self.held.get((r, d))
            if c is not None and self.fits(d) and d not in ordered and "E" not in c[q0 - 8:q1]:
                found.append(c)
                if len(found) == n:
                    return found
        return None

    def baselines(self, r, order, lead):
        """Baselines of the ordered quarters, or None."""
        day, q0, q1, direction, _ = order
        choice = self.res[r][0]
        c = sum(lead)
        if choice == 3:
            return [half(c, 8)] * (q1 - q0)
        hist = self.history(r, day, q0, q1)
        if hist is None:
            return None
        el = sum(sum(h[q0 - 8:q0]) for h in hist)
        if choice == 2 and el == 0:
            return None
        out = []
        for q in range(q0, q1):
            s = sum(h[q] for h in hist)
            if choice == 1:
                a = 15 * c - el
                a = min(a, 0) if direction == "up" else max(a, 0)
                out.append(half(8 * s + a, 120))
            else:
                out.append(half(s * c, el))
        return out

    def contribution(self, r, order, curve):
        day, q0, q1, direction, _ = order
        if "E" in curve[q0 - 8:q1]:
            return self.res[r][1] * (q1 - q0) * 250
        b = self.baselines(r, order, curve[q0 - 8:q0])
        if b is None:
            return None
        s = sum(curve[q0:q1]) - sum(b)
        return s if direction == "up" else -s

    # ---- calls

    def store(self, resources, days, need):
        """A store line for about so many resources and days."""
        rng = self.rng
        width = max(1, resources + rng.choice([0, 0, 0, 0, 0, 0, 1, 1, 2, -1]))
        x = rng.random()
        if x < 0.03:
            width = 32
        self.width, self.cap, self.span = 1, 0, 1
        if rng.random() < 0.5:
            w = rng.choice([days + 5, days + 20, 60, 90, 400, 120]) if rng.random() < 0.93 else rng.choice([1, 5, 15, 22, 30])
            w = min(w, 400)
            words = width * w * 97
            line = "store ring %d %d" % (width, w)
            y = rng.random()
            good = True
            if y < 0.1:
                line += " %d" % words
            elif y < 0.13:
                line += " %d" % rng.choice([words - 1, words + 1, 0, words * 2, words // 97, 97])
                good = False
            elif y < 0.145:
                line, good = "store ring %d %d" % rng.choice([(0, 10), (33, 10), (1, 0), (1, 401), (32, 401), (0, 0), (1000, 3), (3, 1000)]), False
            if good:
                self.width, self.cap, self.span = width, width * w, w
        else:
            rows = need + rng.choice([0, 1, 5, 50, 200]) if rng.random() < 0.9 else rng.randint(1, max(2, need))
            if rng.random() < 0.03:
                rows = rng.choice([12799, 12800, 12801, 13000])
            line = "store journal %d %d" % (width, rows * 387 + rng.choice([0, 0, 1, 200, 386]))
            self.width, self.cap, self.span = width, min(rows, 12800), 36525
            if rng.random() < 0.04:
                line = "store journal %d %d" % rng.choice([(0, 38700), (33, 38700), (1, 0), (1, 386), (2, 100), (0, 0), (4000000000, 387), (1, 387)])
                self.width, self.cap, self.span = (1, 1, 36525) if line.endswith(" 1 387") else (1, 0, 1)
        self.emit(line)
        if rng.random() < 0.4:
            span = rng.choice([90, 90, 90, days + 3, days + 30, 60, 45, 36525, 400])
            if rng.random() < 0.12:
                span = rng.choice([0, 1, 2, 7, 36524, 36526, 99999, MAX, 20, 30])
            self.emit("keep %d" % span)
            self.span = min(self.span, span if 1 <= span <= 36525 else 1)

    def terms(self, base, kinds=None, window=None):
        rng = self.rng
        money = [0, 1, 2, 7, 10, 25, 50, 100, 200, 250, 600, 1000, 2000, 5000, 12345, 50000, 99999, 100000]

        def fields():
            k = kinds or rng.choice([1, 1, 1, 1, 1, 7, 7, 3, 5, 2, 4, 6])
            w = window or rng.choice([(40, 72), (8, 96), (8, 96), (32, 80), (8, 40), (60, 96), None])
            if w is None:
                a = rng.randint(8, 90)
                w = (a, rng.randint(a + 1, 96))
            qc = rng.choice([1, 2, 3, 5, 7, 20, 33, 99, 1000, 127999, 128000, rng.randint(1, 128000)])
            uf = rng.choice(money + [rng.randint(0, 100000)])
            af = rng.choice(money + [rng.randint(0, 100000)])
            n = rng.choice([0, 0, 1, 2, 3, 6, 32 if rng.random() < 0.1 else 0])
            feasts = sorted(rng.sample(range(max(0, base - 60), min(LAST, base + 40)), n))
            return k, w[0], w[1], qc, uf, af, feasts

        def write(k, a, b, qc, uf, af, feasts):
            line = "terms %d %s %s %d %d %d" % (k, self.quarter(a), self.quarter(b), qc, uf, af)
            self.emit(" ".join([line] + [self.day(d) for d in feasts]))

        def bad():
            f = list(fields())
            k = rng.randrange(7)
            if k == 6:
                d = rng.randint(0, LAST - 60)
                f[6] = rng.choice([[d, d], [d + 1, d], [LAST + 1], [d, MAX], list(range(d, d + 33)), [d, d + 2, d + 1]])
            elif k in (1, 2):
                f[1], f[2] = rng.choice([(7, 96), (0, 10), (40, 40), (41, 40), (8, 97), (96, 96), (96, 97), (MAX, 40), (8, MAX), (95, 8)])
            else:
                f[k] = {0: rng.choice([0, 8, 9, 255, MAX]), 3: rng.choice([0, 128001, MAX]), 4: rng.choice([100001, MAX]), 5: rng.choice([100001, MAX])}[k]
            write(*f)

        x = rng.random()
        if x < 0.02:
            bad()
            return
        if x < 0.2:
            for _ in range(rng.randint(1, 3)):
                bad()
        if rng.random() < 0.05:
            write(*fields())
        f = fields()
        write(*f)
        self.kinds, self.w0, self.w1, self.feasts = f[0], f[1], f[2], f[6]
        if rng.random() < 0.08:
            bad()

    def pod(self):
        return "IT%03dE%08d" % (self.rng.randint(0, 999), self.rng.randint(0, 99999999))

    def register(self, choice=None, power=None):
        rng = self.rng
        choice = rng.choice([0, 1, 1, 1, 2, 2, 3]) if choice is None else choice
        power = rng.choice([1, 8, 20, 100, 3999, 4000, rng.randint(1, 4000)]) if power is None else power
        p = self.pod()
        self.emit("register %s %d %d" % (p, choice, power))
        if not self.orders and len(self.res) < self.width and choice <= 3:
            self.res.append((choice or 1, power))
            self.pods.append(p)

    def bad_register(self):
        rng = self.rng
        p = self.pod()
        k = rng.randrange(8)
        if k == 0:
            p = rng.choice([p[:-1], p + "0", p.lower(), p[:5] + "-" + p[6:], p[:13] + "_", "X", "@" * 14, p[:13] + "[", p[:13] + "/", p[:13] + ":", p[:13] + "`"])
            self.emit("register %s %d %d" % (p, rng.choice([1, 9]), rng.choice([8, 0])))
        elif k == 1 and self.pods:
            self.emit("register %s %d 8" % (rng.choice(self.pods), rng.choice([1, 2, 3, 9])))
        elif k == 2:
            self.emit("register %s 1 %d" % (p, rng.choice([0, 4001, MAX])))
        else:
            self.emit("register %s %d 8" % (p, rng.choice([4, 9, 9, 255, 256, 257, 259, 300, 300, 512, 65537, MAX])))

    def enter(self, r, d, curve):
        """A whole curve, by `curve` or by `enter`."""
        if self.directory is not None and self.enter_rng.random() < self.enter_share:
            self.texts += 1
            name = "%d-%d.csv" % (self.seed, self.texts)
            bad = self.enter_rng.random() < 0.1
            with open(os.path.join(self.directory, name), "wb") as f:
                f.write(imports.damaged(self.enter_rng) if bad else imports.valid(self.enter_rng, curve))
            self.emit("enter %d %s %s" % (r, self.day(d), name))
            if bad and self.enter_rng.random() < 0.8:
                self.emit("curve %d %s %s" % (r, self.day(d), self.values(curve)))
        else:
            self.emit("curve %d %s %s" % (r, self.day(d), self.values(curve)))
        self.put(r, d, curve)

    def bad_curve(self, r, d):
        rng = self.rng
        v = rng.randint(-3000, 3000)
        self.emit("curve %d %s %s" % (r, self.day(d), rng.choice([
            "%d*95" % v, "%d*97" % v, "%d" % v, "E*95", "%d*0" % v, "%d*96 E" % v, "%d*192" % v, "E*100000",
            "1000001*96", "-1000001*96", "%d*95 1000001" % v, "-1000001 %d*95" % v, "%d*50 4294967295 %d*45" % (v, v),
            "-4294967295 %d*95" % v, "E*95 1000001"])))

    def stray_curve(self, base):
        rng = self.rng
        k = rng.randrange(5)
        r = rng.randrange(max(1, len(self.res)))
        if k == 0:
            self.bad_curve(rng.choice([r, 40, MAX]), rng.choice([base, LAST + 1]))
        elif k == 1:
            r = rng.choice([len(self.res), len(self.res) + 1, 31, 32, MAX])
            self.enter(r, rng.choice([base, 0, LAST, LAST + 1]), [-5] * 96)
        elif k == 2:
            self.enter(rng.choice([r, 40]), rng.choice([LAST + 1, MAX, 40000]), [-5] * 96)
        elif k == 3 and self.held:
            r, d = rng.choice(sorted(self.held))
            self.enter(r, d, [rng.randint(-9, 9)] * 96)
        elif self.floor > 0:
            self.enter(r, rng.choice([self.floor - 1, 0, max(0, self.floor - 30)]), [1] * 96)

    def order(self, d, q0, q1, direction, qr):
        self.emit("order %s %s %s %s %d" % (self.day(d), self.quarter(q0), self.quarter(q1), direction, qr))
        ok = 0 <= q0 < q1 <= 96 and self.fits(d) and 1 <= qr <= 128000 and q0 >= self.w0 and q1 <= self.w1
        if ok and self.orders:
            b = self.orders[-1]
            ok = 96 * d + q0 >= 96 * b[0] + b[2] + 8
        if ok and len(self.orders) < 128:
            self.orders.append((d, q0, q1, direction, qr))
        if 0 <= d <= LAST:
            x = D0 + datetime.timedelta(d)
            self.months.add((x.year, x.month))

    def bad_order(self, d):
        rng = self.rng
        q0 = rng.randint(self.w0, self.w1 - 1)
        q1 = rng.randint(q0 + 1, self.w1)
        direction = rng.choice(["up", "down"])
        k = rng.randrange(9)
        if k == 0:
            self.order(rng.choice([LAST + 1, MAX]), q0, q1, direction, 8)
        elif k == 1:
            a, b = rng.choice([(q0, q0), (q1, q0), (q0, 97), (96, 97), (MAX, q1), (96, 96)])
            self.order(d, a, b, direction, 8)
        elif k == 2:
            self.order(d, q0, q1, direction, rng.choice([0, 128001, MAX]))
        elif k == 3:
            self.order(d, self.w0 - 1, q1, direction, 8)
        elif k == 4 and self.w1 < 96:
            self.order(d, q0, self.w1 + 1, direction, 8)
        elif k == 5:
            for e in range(d, min(LAST, d + 7)):
                if not self.fits(e):
                    self.order(e, q0, q1, direction, 8)
                    break
        elif self.orders:
            b = self.orders[-1]
            t = 96 * b[0] + b[2] + rng.choice([7, 7, 7, 6, 0, -1, 8])
            q0 = t % 96
            self.order(t // 96, q0, min(96, q0 + rng.randint(1, 4)), direction, rng.choice([1, 8]))

    def declare(self, d):
        rng = self.rng
        q0 = rng.randint(self.w0, self.w1 - 1)
        q1 = min(self.w1, q0 + rng.randint(1, 12))
        k = rng.random()
        if k < 0.06:
            q0, q1 = rng.choice([(q0, q0), (q1, q0), (q0, 97), (MAX, 3)])
        elif k < 0.12:
            q0, q1 = rng.choice([(self.w0 - 1, q1), (q0, self.w1 + 1), (0, 96)])
        elif k < 0.16:
            d = rng.choice([LAST + 1, MAX])
        elif k < 0.5 and self.decl:
            d, a, b = rng.choice(self.decl)
            q0, q1 = rng.choice([(a, b), (b, b + 1), (b - 1, b + 2), (a - 1, a), (a - 2, a + 1), (a - 1, b + 1), (b, self.w1), (self.w0, a)])
            q0 = max(0, q0)
        self.emit("declare %s %s %s" % (self.day(d), self.quarter(q0), self.quarter(q1)))
        if q0 < q1 and 0 <= d <= LAST:
            self.decl.append((d, q0, q1))
            x = D0 + datetime.timedelta(d)
            self.months.add((x.year, x.month))

    def settle(self, k):
        self.emit("settle %d" % k)

    def ask(self, ym):
        for word in self.rng.choice([["month", "line"], ["line", "month"]]):
            self.emit("%s %d %d" % ((word,) + ym))

    # ---- curves

    def style(self):
        """How a resource's readings look: a function from day to 96 readings."""
        rng = self.rng
        k = rng.choice(["flat"] * 4 + ["drift"] * 2 + ["noise"] * 4 + ["shape"] * 3 + ["alt", "zero", "big", "big", "tiny", "extreme"])
        v = rng.randint(-4000, 500)
        share = rng.choice([0, 0, 0.05, 0.1, 0.2])
        odd = rng.randrange(96)
        shape = [rng.randint(-5000, 1000) for _ in range(96)]

        def curve(d):
            if k == "flat":
                c = [v] * 96
            elif k == "drift":
                c = [v + rng.randint(-20, 20)] * 96
            elif k == "noise":
                c = [v + rng.randint(-300, 300) for _ in range(96)]
            elif k == "shape":
                c = [s + rng.randint(-3, 3) for s in shape]
            elif k == "alt":
                c = [v if q % 2 else -v for q in range(96)]
                c[odd] += rng.choice([0, 1])
            elif k == "zero":
                c = [0] * 96
                if rng.random() < 0.1:
                    c[rng.randrange(96)] = rng.choice([1, -1])
            elif k == "big":
                c = [rng.choice([1000000, -1000000, 999999, rng.randint(-1000000, 1000000)]) for _ in range(96)]
            elif k == "tiny":
                c = [rng.randint(-2, 2) for _ in range(96)]
            else:
                c = [rng.choice([1000000, -1000000])] * 96
            if rng.random() < share:
                for _ in range(rng.randint(1, 4)):
                    a = rng.randrange(96)
                    for q in range(a, min(96, a + rng.choice([1, 1, 2, 8]))):
                        c[q] = "E"
            return c
        return curve

    def order_day_curves(self, d, styles, skip=None):
        """Curves of all resources for a day, tuned where orders are booked on it."""
        rng = self.rng
        orders = [o for o in self.orders if o[0] == d]
        curves = {}
        for r in range(len(self.res)):
            c = styles[r](d)
            if orders and rng.random() < 0.75:
                base = [x for x in c if x != "E"] or [0]
                c = [rng.choice(base) if x == "E" else x for x in c]
            for o in orders:
                q0, q1 = o[1], o[2]
                if "E" in c[q0 - 8:q1]:
                    continue
                if rng.random() < 0.6:  # a sum of the lead quarters that gives ties
                    want = rng.choice([4, 4, 4, 0, 1, 3, 5, 7])
                    q = rng.randrange(q0 - 8, q0)
                    step = (want - sum(c[q0 - 8:q0])) % 8
                    c[q] = c[q] + step if c[q] + step <= 1000000 else c[q] + step - 8
                if rng.random() < 0.3:  # the lead quarters move
                    move = rng.choice([-200, 200, -1, 1, 1000, -1000])
                    for q in range(q0 - 8, q0):
                        c[q] = max(-1000000, min(1000000, c[q] + move))
            curves[r] = c
        for o in orders:
            day, q0, q1, direction, qr = o
            eda = qr * (q1 - q0) * 250
            n = len(self.res)
            total = 0
            for r in range(n):
                c = curves[r]
                if "E" not in c[q0 - 8:q1]:
                    b = self.baselines(r, o, c[q0 - 8:q0])
                    if b is not None:
                        x = rng.random()
                        if r + 1 < n:
                            want = eda // n + rng.randint(-50, 50)
                        elif x < 0.45:
                            want = 3 * eda // 5 + rng.choice([0, 0, -1, 1]) - total
                        elif x < 0.65:
                            want = eda + rng.choice([0, 0, -1, 1]) - total
                        elif x < 0.8:
                            want = rng.randint(0, eda + eda // 2) - total
                        else:
                            want = rng.choice([0, -1, 1, -eda, 2 * eda, 3 * eda]) - total
                        if rng.random() < 0.85:
                            need = sum(b) + (want if direction == "up" else -want)
                            k = q1 - q0
                            for i, q in enumerate(range(q0, q1)):
                                left = k - i
                                v = need // left if rng.random() < 0.7 else need // left + rng.randint(-40, 40)
                                if left == 1:
                                    v = need
                                v = max(-1000000, min(1000000, v))
                                c[q] = v
                                need -= v
                        if rng.random() < 0.08:
                            c[rng.choice([q0 - 8, q0 - 1, q0, q1 - 1, rng.randrange(q0 - 8, q1)])] = "E"
                        if rng.random() < 0.08:  # just outside: does not matter
                            for q in (q0 - 9, q1):
                                if 0 <= q <= 95 and not any(o[1] - 8 <= q < o[2] for o in orders):
                                    c[q] = "E"
                x = self.contribution(r, o, c)
                total += x or 0
        for r in range(len(self.res)):
            if r != skip:
                self.enter(r, d, curves[r])

    def make_order(self, d, room=None):
        rng = self.rng
        q0 = rng.randint(self.w0, self.w1 - 1)
        x = rng.random()
        if x < 0.05:
            q0, q1 = self.w0, self.w1
        elif x < 0.2:
            q1 = q0 + 1
        else:
            q1 = min(self.w1, q0 + rng.choice([2, 3, 4, 4, 4, 5, 6, 8, 12]))
        qr = rng.choice([1, 2, 3, 4, 8, 8, 10, 16, 25, 100])
        if rng.random() < 0.06:
            qr = rng.choice([128000, 127999, 4000, 1000])
        before = len(self.orders)
        self.order(d, q0, q1, rng.choice(["up", "up", "down"]), qr)
        if len(self.orders) > before and q1 + 9 < self.w1 and rng.random() < 0.15:
            a = q1 + rng.choice([8, 8, 7, 9])
            if a < self.w1:
                self.order(d, a, rng.randint(a + 1, min(self.w1, a + 6)), rng.choice(["up", "down"]), rng.choice([1, 3, 8]))

    # ---- lives

    def ending(self):
        rng = self.rng
        for k in range(len(self.orders)):
            if rng.random() < 0.02:
                for ym in sorted(self.months):
                    self.ask(ym)
            self.settle(k)
        if rng.random() < 0.3:
            self.settle(rng.choice([len(self.orders), len(self.orders) + 1, 127, 128, MAX]))
        if rng.random() < 0.3:
            self.settle(rng.randrange(max(1, len(self.orders))))
        for ym in sorted(self.months) or [(2026, 6)]:
            self.ask(ym)
        if rng.random() < 0.15:
            self.ask(rng.choice([(1999, 12), (2100, 1), (2026, 0), (2026, 13), (0, 0), (MAX, MAX), (2000, 2), (2099, 12)]))

    def base_day(self):
        rng = self.rng
        x = rng.random()
        if x < 0.6:
            return 9677 + rng.randint(-200, 200)
        if x < 0.65:
            return rng.randint(0, 100)
        if x < 0.75:
            return LAST - rng.randint(0, 20)
        return rng.randint(400, 36000)

    def main_life(self):
        rng = self.rng
        base = self.base_day()
        kinds = rng.choice([1, 1, 1, 1, 1, 1, 7, 7, 7, 3, 5, 6])
        days = rng.randint(26, 60) if rng.random() < 0.9 else rng.randint(3, 25)
        if kinds == 6:
            days = rng.randint(50, 70)
        resources = rng.choice([0, 1, 1, 1, 2, 2, 2, 3, 3, 4])
        if resources * days > 220:
            days = max(26, 220 // resources)
        after = rng.randint(2, 12)
        self.store(resources, days + after, resources * (days + after))
        self.terms(base, kinds)
        while base < LAST and not self.fits(base) and rng.random() < 0.95:
            base += 1
        for _ in range(resources):
            if rng.random() < 0.1:
                self.bad_register()
            self.register()
        if rng.random() < 0.1:
            self.register()
        styles = [self.style() for _ in range(len(self.res) + 1)]
        # history
        pairs = [(r, d) for d in range(max(0, base - days), min(LAST + 1, base)) for r in range(len(self.res))]
        if rng.random() < 0.25 and self.kinds != 7:  # days of other kinds are left out
            pairs = [p for p in pairs if self.fits(p[1])]
        x = rng.random()
        if x < 0.15:
            rng.shuffle(pairs)
        elif x < 0.3:
            pairs.sort()
        elif x < 0.4:
            pairs.sort(key=lambda p: (p[0], -p[1]))
        for r, d in pairs:
            if rng.random() < 0.015:
                self.stray_curve(d)
            if rng.random() < 0.008:
                continue
            self.enter(r, d, styles[r](d))
        if rng.random() < 0.06:
            self.drop(base, days)
        # days with orders
        d = base
        waiting = []
        stop = min(LAST, base + after)
        share = rng.choice([0.2, 0.4, 0.7])
        while d <= stop:
            early = rng.random() < 0.1
            if early:
                self.order_day_curves(d, styles)
            if self.fits(d) and (rng.random() < share or d == base):
                self.make_order(d)
            if rng.random() < 0.12:
                self.bad_order(d)
            if rng.random() < 0.06 and self.orders:
                rng.choice([self.register, self.bad_register])()
            if rng.random() < 0.2:
                self.declare(d)
            if rng.random() < 0.05 and self.orders:
                self.settle(rng.randrange(len(self.orders)))  # too early perhaps
            if rng.random() < 0.08:
                self.stray_curve(d)
            if not early:
                self.order_day_curves(d, styles, rng.randrange(len(self.res)) if self.res and rng.random() < 0.02 else None)
            if rng.random() < 0.3 and self.orders:
                self.settle(len(self.orders) - 1)
            if rng.random() < 0.01:
                self.drop(d, 20)
            if rng.random() < 0.05 and self.months:
                self.ask(rng.choice(sorted(self.months)))
            d += 1
        self.ending()

    def drop(self, base, days):
        rng = self.rng
        d = rng.choice([base - days, base - days + rng.randint(0, 10), base - rng.randint(1, 30), LAST + 1, MAX, 0, self.floor, self.floor + 1])
        d = max(0, d)
        self.emit("drop %s" % self.day(d))
        if d <= LAST and d > self.floor:
            self.floor = d
            self.held = {k: v for k, v in self.held.items() if k[1] >= d}

    def weekly_life(self):
        """Saturdays or Sundays only, over months."""
        rng = self.rng
        kinds = rng.choice([4, 2, 4, 6])
        base = self.base_day()
        base += (1 if kinds != 2 else 0) - base % 7
        base = max(1, min(LAST - 7, base))
        resources = rng.choice([1, 1, 2, 3])
        weeks = rng.randint(14, 40)
        self.store(resources, 7 * weeks + 20, resources * (2 * weeks + 4))
        self.terms(base, kinds)
        for _ in range(resources):
            self.register(rng.choice([1, 2, 3, 1]))
        styles = [self.style() for _ in range(len(self.res) + 1)]
        for d in range(max(0, base - 7 * weeks), base):
            if self.fits(d):
                for r in range(len(self.res)):
                    self.enter(r, d, styles[r](d))
        for k in range(rng.randint(1, 3)):
            if self.fits(base + 7 * k):
                self.make_order(base + 7 * k)
            elif rng.random() < 0.5:
                self.bad_order(base + 7 * k)
            self.order_day_curves(base + 7 * k, styles)
            if rng.random() < 0.4:
                self.declare(base + 7 * k)
        self.ending()

    def far_life(self):
        """History at the edge of the 400 days."""
        rng = self.rng
        base = rng.choice([400, 401, 399, 9677, 36520, rng.randint(450, 36000)])
        self.width, self.cap, self.span = 2, 100, 36525
        if rng.random() < 0.3:
            self.width, self.cap, self.span = 2, 800, 400
            self.emit("store ring 2 400")
        else:
            self.emit("store journal 2 38700")
        self.terms(base, 7)
        self.register(rng.choice([1, 2]))
        if rng.random() < 0.4:
            self.register(rng.choice([1, 2, 3]))
        styles = [self.style() for _ in range(3)]
        for r in range(len(self.res)):
            first = max(0, base - rng.choice([400, 400, 401, 399]))
            days = [first] + rng.sample(range(first + 1, base), rng.choice([14, 14, 14, 15, 13]))
            for d in sorted(days) if rng.random() < 0.7 else days:
                self.enter(r, d, styles[r](d))
        self.make_order(base)
        self.order_day_curves(base, styles)
        self.make_order(base + 1)
        self.order_day_curves(base + 1, styles)
        self.ending()

    def edge2_life(self):
        """Option 2 where the value lies at the limits of 10,000,000, and ties."""
        rng = self.rng
        base = rng.randint(100, 36000)
        n = rng.choice([1, 1, 2])
        self.store(n, 40, n * 40)
        self.terms(base, 7, (8, 96))
        for _ in range(n):
            self.register(2)
        q0 = rng.randint(8, 90)
        q1 = min(96, q0 + rng.randint(1, 5))
        pattern = [0] * 96
        el = rng.choice([1, 2, 2, 2, -2, -1, 3, 4])
        pattern[rng.randrange(q0 - 8, q0)] = el
        for q in range(q0, q1):
            pattern[q] = rng.choice([3, -3, 0, 1, 6, 2, -2, 5, -5, 1000])
        for d in range(base - 20, base):
            for r in range(len(self.res)):
                self.enter(r, d, list(pattern))
        for k in range(3):
            d = base + k
            self.order(d, q0, q1, rng.choice(["up", "down"]), rng.choice([1, 1000, 128000]))
            for r in range(len(self.res)):
                c = rng.choice([6666667, 6666666, 6666668, 5000000, 4000000, 3333333, 3333334, 20000, 10000, 1, 3, 0]) * rng.choice([1, -1])
                curve = [rng.choice([0, 1000000, -1000000, 5])] * 96
                for i in range(8):
                    v = c // (8 - i) if c >= 0 else -(-c // (8 - i))
                    curve[q0 - 8 + i] = v
                    c -= v
                self.enter(r, d, curve)
            if rng.random() < 0.7:
                self.settle(k)
        self.ending()

    def many_orders_life(self):
        rng = self.rng
        base = rng.randint(100, 36000)
        n = rng.choice([0, 1, 1])
        self.store(1, 40, 40)
        self.terms(base, 7, (8, 96))
        if n:
            self.register(rng.choice([3, 3, 1]))
        styles = [self.style() for _ in range(2)]
        d = base
        total = rng.choice([128, 130, 133, 136])
        booked = 0
        while booked < total:
            q = 8 + rng.randrange(3)
            while q < 96 and booked < total:
                self.order(d, q, q + 1, rng.choice(["up", "down"]), rng.choice([1, 2, 3]))
                booked += 1
                q += 9 if rng.random() < 0.97 else 8
            self.order_day_curves(d, styles)
            d += 1
        if rng.random() < 0.5:
            self.order(d, 20, 21, "up", 1)
        self.ending()

    def many_declares_life(self):
        rng = self.rng
        base = rng.randint(100, 36000)
        self.store(1, 40, 40)
        self.terms(base, rng.choice([1, 7, 7]), (8, 96))
        if rng.random() < 0.5:
            self.register()
        taken, made, d = set(), 0, base
        total = rng.choice([62, 63, 64, 64, 64, 64])
        while made < total:
            if self.fits(d):
                q = 8
                while q < 90 and made < total:
                    e = q + rng.randint(1, 6)
                    self.emit("declare %s %s %s" % (self.day(d), self.quarter(q), self.quarter(e)))
                    self.decl.append((d, q, e))
                    these = {(d, k) for k in range(q, e)}
                    if not these & taken:
                        taken |= these
                        made += 1
                    q = e + rng.choice([0, 0, 0, 3, -1])
                x = D0 + datetime.timedelta(d)
                self.months.add((x.year, x.month))
            d += rng.choice([0, 1, 1, 3])
        for _ in range(6):
            d = min(LAST, d + rng.choice([0, 1, 2]))
            self.declare(d)
        self.ending()

    def wild_life(self):
        """Calls in any sequence, also senseless ones."""
        rng = self.rng
        base = self.base_day()
        self.store(rng.randint(0, 4), rng.choice([5, 30]), rng.choice([5, 20, 60]))
        self.terms(base)
        styles = [self.style() for _ in range(33)]
        for _ in range(rng.randint(0, 3)):
            self.register()
        if rng.random() < 0.6:  # a history first
            for d in range(max(0, base - rng.randint(22, 40)), base):
                for r in range(len(self.res)):
                    if rng.random() < 0.97:
                        self.enter(r, d, styles[r](d))
        d = base
        for _ in range(rng.randint(50, 130)):
            k = rng.randrange(20)
            if k < 8:
                r = rng.randrange(len(self.res) + 1) if rng.random() < 0.1 else rng.randrange(max(1, len(self.res)))
                e = d + rng.randint(-10, 3)
                self.enter(r, max(0, e), styles[min(r, 32)](e))
            elif k == 8:
                self.stray_curve(d)
            elif k == 9:
                rng.choice([self.register, self.bad_register])()
            elif k == 10:
                if self.fits(d):
                    self.make_order(d)
            elif k == 11:
                self.bad_order(d)
            elif k in (12, 13):
                self.declare(max(0, d + rng.randint(-3, 3)))
            elif k == 14:
                self.settle(rng.randrange(len(self.orders) + 2))
            elif k == 15 and self.months:
                self.ask(rng.choice(sorted(self.months)))
            elif k == 16 and rng.random() < 0.3:
                self.drop(d, 10)
            else:
                if d < LAST and rng.random() < 0.6:
                    d += 1
                self.order_day_curves(d, styles)
        self.ending()

    def spoil(self):
        """An error of the file somewhere."""
        rng = self.rng
        bad = [b"unknown", b"settle", b"settle 0 0", b"settle x", b"settle -1", b"settle +1", b"settle 4294967296", b"settle 0\r",
               b" settle 0", b"settle 0 ", b"settle  0", b"settle\t0", b"order 2026-02-30 44 48 up 8", b"order 2026-6-30 44 48 up 8",
               b"order 9677 11:10 12:00 up 8", b"order 9677 1:00 12:00 up 8", b"order 9677 44 48 sideways 8", b"order 9677 44 48 up",
               b"order 2100-01-01 44 48 up 8", b"order 1999-12-31 44 48 up 8", b"curve 0 9677", b"curve 0 9677 x*96",
               b"curve 0 9677 +5*96", b"curve 0 9677 5*", b"curve 0 9677 5*-1", b"curve 0 9677 --5*96", b"curve 0 9677 e*96",
               b"store ring 1 60", b"keep 90", b"terms 1 40 72 20 2000 50", b"\xc3\xa9", b"settle 0\xff", b"month 2026", b"line 2026 6 1",
               b"Settle 0", b"SETTLE 0", b"\r", b" ", b"enter 0 9677 no-such-file.csv", b"enter 0 9677", b"register IT001E00000001 1",
               b"drop", b"drop 2026-06-31", b"drop 2025-02-29", b"declare 9677 44", b"terms 1 40 72 20 2000", b"keep", b"store", b"store heap 1 1",
               b"curve 0 9677 -*96", b"curve 0 9677 1.5*96", b"settle 0x1", b"drop 9677.0", b"order 9677 44 48 UP 8", b"declare 9677 11-00 48"]
        k = rng.randrange(len(self.out) + 1) if rng.random() < 0.7 else rng.randrange(min(6, len(self.out) + 1))
        line = rng.choice(bad)
        if line.startswith((b"store", b"keep", b"terms")) and k < 10:
            k = len(self.out)  # certainly out of sequence
        self.out.insert(k, line)

    def text(self):
        rng = self.rng
        x = rng.random()
        for limit, life in [(0.64, self.main_life), (0.71, self.weekly_life), (0.75, self.far_life), (0.79, self.edge2_life),
                            (0.81, self.many_orders_life), (0.84, self.many_declares_life), (1, self.wild_life)]:
            if x < limit:
                life()
                self.out.append(b"# " + life.__name__.encode())
                break
        y = rng.random()
        if y < 0.03:
            self.spoil()
        elif y < 0.04:
            self.out = self.out[:rng.randint(0, 5)]  # a life that ends early
        end = b"" if rng.random() < 0.03 else b"\n"
        return b"\n".join(self.out) + (end if self.out else b"")


def main():
    if sys.argv[1] == "--many":
        first, count, directory = int(sys.argv[2]), int(sys.argv[3]), sys.argv[4]
        os.makedirs(directory, exist_ok=True)
        for seed in range(first, first + count):
            text = Life(seed, directory).text()
            with open(os.path.join(directory, "%d.life" % seed), "wb") as f:
                f.write(text)
    else:
        directory = sys.argv[2] if len(sys.argv) > 2 else None
        sys.stdout.buffer.write(Life(int(sys.argv[1]), directory).text())


if __name__ == "__main__":
    main()
