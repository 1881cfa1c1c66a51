"""The page of a scan: what it says of each chunk, and that it opens in a browser."""
from __future__ import annotations

import json
import os
import random
import re
import tempfile
import unittest
from typing import Any, Dict, List

import common
from colscan import Table, col, lit
from colscan.explain import STEPS, Column, Plan, Zone, page, plan_of
from colscan.ranges import Range, ranges_of
from colscan.table import Known
from colscan.types import parse


def table(dtype: Any, length: int = 16) -> Table:
    return Table.create(dtype, length, program=common.program(), timeout=common.TIMEOUT)


def data_of(made: str) -> Dict[str, Any]:
    """The plan that stands in a page."""
    found = re.search(r'<script type="application/json" id="plan">(.*?)</script>', made, re.S)
    assert found is not None
    data: Dict[str, Any] = json.loads(found.group(1))
    return data


def texts(predicate: Any, dtype: Any = None) -> List[str]:
    return [one.text for one in ranges_of(predicate.to_json(dtype))]


class Ranges(unittest.TestCase):
    def test_comparisons(self) -> None:
        a = col("a")
        self.assertEqual(texts((a > 5) & (a <= 9)), ["5 < a <= 9"])
        self.assertEqual(texts(lit(5) > a), ["a < 5"])
        self.assertEqual(texts(a.between(1, 9, closed="left")), ["1 <= a < 9"])
        self.assertEqual(texts((a == 1) | (a == 5)), ["a = 1", "a = 5"])
        self.assertEqual(texts((a > 5) & (col("b") < 3)), ["a > 5", "b < 3"])
        self.assertEqual(texts(a <= col("b")), [])

    def test_sides_without_a_common_value_stay_apart(self) -> None:
        a = col("a")
        self.assertEqual(texts((a > 5) & (a < 3)), ["a > 5", "a < 3"])
        self.assertEqual(texts((a > 5) & (a < 5)), ["a > 5", "a < 5"])
        self.assertEqual(texts((a >= 5) & (a <= 5)), ["5 <= a <= 5"])

    def test_sides_of_an_or_stay_apart(self) -> None:
        a, b = col("a"), col("b")
        self.assertEqual(texts((a > 5) & ((a < 9) | (b == 1))), ["a > 5", "a < 9", "b = 1"])
        self.assertEqual(texts((a > 5) & ~a.between(7, 8)), ["a > 5", "a < 7", "a > 8"])
        self.assertEqual(texts((a > 5) & ((a < 9) | (b == 1)) & (a < 20)),
                         ["5 < a < 20", "a < 9", "b = 1"])
        self.assertEqual(texts((a > 5) & ((a < 9) | lit(True))), ["a > 5", "a < 9"])

    def test_what_no_chunk_is_skipped_by(self) -> None:
        for predicate in (~(col("a") > 5), col("t"), col("s").like("%x"), col("s").not_like("x%")):
            self.assertEqual([one.used for one in ranges_of(predicate.to_json())], [False])
        one = ranges_of((~(col("a") > 5)).to_json())[0]
        self.assertEqual((one.low, one.high), (None, 5))

    def test_patterns(self) -> None:
        def ends(pattern: str) -> Any:
            one = ranges_of(col("s").like(pattern).to_json())[0]
            return one.low, one.high, one.high_in

        self.assertEqual(ends("x%"), ("x", "y", False))
        self.assertEqual(ends("xy"), ("xy", "xy", True))
        self.assertEqual(ends("x_y"), ("x", "y", False))
        self.assertEqual(ends("a\U0010ffff%"), ("a\U0010ffff", "b", False))
        self.assertEqual(ends("\ud7ff%"), ("\ud7ff", "\ue000", False))
        self.assertEqual(ends("\U0010ffff%")[1], None)

    def test_bytes_and_nulls(self) -> None:
        one = ranges_of((col("x") >= b"\x01").to_json({"x": "binary"}))[0]
        self.assertEqual((one.low, one.text), (b"\x01", "x >= x'01'"))
        self.assertEqual(texts(col("x").is_null() | ~col("y").is_null()),
                         ["x is null", "y is not null"])

    def test_what_satisfies_lies_in_a_range(self) -> None:
        """Of one column: where a value satisfies the predicate, some range has it."""
        chance = random.Random(11)
        for _ in range(500):
            where = random_tree(chance, 3)
            for value in range(-1, 8):
                if holds(where, value):
                    self.assertTrue(
                        any(lies_in(one, value) for one in ranges_of(where)), (where, value)
                    )


def random_tree(chance: random.Random, depth: int) -> List[Any]:
    form = chance.choice(["and", "or", "not", "test"]) if depth else "test"
    if form == "test":
        number = ["lit", {"kind": "i64"}, chance.randrange(7)]
        sides = [["col", "a"], number]
        if chance.random() < 0.5:
            sides.reverse()
        return [chance.choice(["=", "!=", "<", "<=", ">", ">="]), *sides]
    count = 1 if form == "not" else 2
    return [form, *(random_tree(chance, depth - 1) for _ in range(count))]


def holds(where: List[Any], value: int) -> bool:
    form, *parts = where
    if form == "not":
        return not holds(parts[0], value)
    if form in ("and", "or"):
        return (all if form == "and" else any)(holds(part, value) for part in parts)
    left, right = (value if part[0] == "col" else part[2] for part in parts)
    found = {"=": left == right, "!=": left != right, "<": left < right, "<=": left <= right,
             ">": left > right, ">=": left >= right}
    return bool(found[form])


def lies_in(one: Range, value: int) -> bool:
    low = one.low is None or one.low < value or (one.low_in and one.low == value)
    high = one.high is None or value < one.high or (one.high_in and one.high == value)
    return low and high


class Plans(unittest.TestCase):
    def test_bounds_are_what_the_program_said(self) -> None:
        with table({"a": "i32?", "s": "utf8"}, 2) as made:
            made.append([[1, "abc"], [5, "b"]])
            made.append([[None, "x"]])
            made.append([[9, "\U0010ffff\U0010ffff"]])
            plan = plan_of(made, (col("a") > 4) & (col("s") >= "a"))
        # Of null alone there are no bounds, so the second chunk is tested.
        self.assertEqual(plan.outcomes, "ttt")
        a, s = plan.columns
        self.assertEqual([zone.text() for zone in a.zones], ["1 to 5", "null alone", "9 to 9"])
        self.assertEqual(s.zones[0].text(), "'ab' (shortened) to 'b'")
        self.assertIsNone(s.zones[2].high)
        self.assertEqual((plan.selected, plan.rows_tested, plan.where),
                         (2, 4, str((col("a") > 4) & (col("s") >= "a"))))
        low, high = (data_of(page(plan))["columns"][1]["scales"][0][key] for key in ("low", "high"))
        self.assertEqual(high[2], -1)
        self.assertTrue(all(step >= 0 for step in [*low[:2], *high[:2]]))

    def test_groups_have_one_zone(self) -> None:
        with table({"a": "i32"}) as made:
            made.append({"a": range(12)}, rows_per_chunk=3)
            made.join(1)
            plan = plan_of(made, col("a") == 4)
        self.assertEqual(list(plan.groups), [1, 2, 1])
        zones = plan.columns[0].zones
        self.assertEqual([zone.text() for zone in zones], ["0 to 2", "3 to 8", "9 to 11"])
        self.assertEqual([zone.rows for zone in zones], [3, 6, 3])
        self.assertEqual(plan.outcomes, "stss")

    def test_without_columns_and_without_chunks(self) -> None:
        with table({"a": "i32"}) as made:
            self.assertEqual(plan_of(made, col("a") > 1).outcomes, "")
            made.append([[1]])
            plan = plan_of(made, lit(True))
        self.assertEqual((plan.outcomes, list(plan.columns)), ("w", []))
        self.assertIn("1 chunk: 0 skipped, 1 taken whole, 0 tested.", page(plan))

    def test_columns_in_records_and_all_kinds(self) -> None:
        with table({"p": {"q": "u64", "b": "bool"}, "x": "binary"}) as made:
            made.append([[[2**64 - 1, True], b"\x00\xff"], [[0, False], b""]])
            where = (col("p", "q") > 5) & (col("p", "b") == True) & (col("x") < b"\x01")  # noqa
            plan = plan_of(made, where)
        data = data_of(page(plan))
        self.assertEqual([column["name"] for column in data["columns"]], ["p.q", "p.b", "x"])
        self.assertEqual(data["columns"][0]["said"], ["0 to 18446744073709551615"])
        self.assertEqual(data["columns"][0]["scales"][0]["high"], [STEPS])
        self.assertEqual(data["columns"][2]["said"], ["x'' to x'00ff'"])

    def test_a_range_far_outside_is_at_the_edge(self) -> None:
        zones = [Zone(Known(10, True), Known(20, True), 0, 1)]
        ranges = ranges_of((col("a") > 10**15).to_json())
        column = Column(("a",), parse("i64"), zones, ranges)
        plan = Plan("a > 1", [1], [1], "s", [column], 0, 0, 1)
        scale = data_of(page(plan))["columns"][0]["scales"][0]
        self.assertEqual((scale["low"], scale["high"]), ([0], [10 * STEPS // 12]))
        self.assertEqual(scale["ends"], [{"at": STEPS, "text": "▲ 1000000000000000", "used": True}])


EVIL = "</script><script>window.hit = 1</script><img src=x onerror='window.hit = 1'>&lt;\u2028"


def evil_plan(made: Table) -> Plan:
    made.append([[EVIL, 1], ["b", 2]], rows_per_chunk=1)
    return plan_of(made, (col(EVIL) != EVIL) | (col(EVIL) == "b"))


class Pages(unittest.TestCase):
    def test_names_and_values_are_escaped(self) -> None:
        with table({EVIL: "utf8", "a": "i32"}, 200) as made:
            text = page(evil_plan(made))
        self.assertEqual(text.count("</script>"), 2)
        self.assertNotIn("<img", text)
        self.assertIn("</script>", data_of(text)["columns"][0]["name"])

    def test_it_loads_nothing(self) -> None:
        text = page(Plan("true", [1], [1], "w", [], 1, 0, 1))
        for word in ("http:", "https:", "url(", "@import", "src=", "href=", "fetch("):
            self.assertNotIn(word, text)
        self.assertIn("default-src 'none'", text)


def browser() -> Any:
    """Chromium without a window; skipped by name where a part of it isn't there."""
    if not common.is_there("selenium"):
        raise unittest.SkipTest("selenium isn't there")
    import shutil

    programs = [shutil.which(name) for name in ("chromium", "chromedriver")]
    if None in programs:
        raise unittest.SkipTest("chromium isn't there")
    from selenium import webdriver
    from selenium.webdriver.chrome.service import Service
    from selenium.webdriver.remote.remote_connection import RemoteConnection

    RemoteConnection.set_timeout(120)
    options = webdriver.ChromeOptions()
    options.binary_location = programs[0]
    for word in ("headless=new", "no-sandbox", "disable-gpu", "disable-dev-shm-usage",
                 "window-size=1280,1000"):
        options.add_argument("--" + word)
    options.set_capability("goog:loggingPrefs", {"browser": "ALL"})
    made = webdriver.Chrome(service=Service(programs[1]), options=options)
    made.set_page_load_timeout(60)
    made.set_script_timeout(60)
    return made


def many(count: int, height: int = 3) -> Plan:
    """A plan of this many chunks, made without a table."""
    zones = [Zone(Known(at, True), Known(at + height, True), at % 3, 10) for at in range(count)]
    ranges = ranges_of(col("a").between(count // 2, count // 2 + 2).to_json())
    outcomes = "".join("t" if abs(at - count // 2) < 4 else "s" for at in range(count))
    columns = [Column((name,), parse("i64?"), zones, ranges) for name in ("a", "b")]
    return Plan("a", [10] * count, [1] * count, outcomes, columns, 3, 70, count)


class Browser(unittest.TestCase):
    @classmethod
    def setUpClass(cls) -> None:
        cls.folder = tempfile.TemporaryDirectory()
        cls.addClassCleanup(cls.folder.cleanup)
        cls.driver = browser()
        cls.addClassCleanup(cls.driver.quit)

    def open(self, plan: Plan) -> None:
        """Opens a page, which has to say that it is ready, and to say of no error."""
        file = os.path.join(self.folder.name, "page.html")
        with open(file, "w", encoding="utf-8") as out:
            out.write(page(plan))
        self.driver.get_log("browser")
        self.driver.get("file://" + file)
        self.assertEqual(self.script("return document.body.dataset.ready"), "true")
        self.assertEqual(self.driver.get_log("browser"), [])

    def script(self, text: str) -> Any:
        return self.driver.execute_script(text)

    def bars(self) -> List[Dict[str, str]]:
        """What each picture says that it has drawn."""
        found: List[Dict[str, str]] = self.script(
            "return [...document.querySelectorAll('canvas.bars')].map(it => ({...it.dataset}))"
        )
        return found

    def test_as_many_bars_as_chunks(self) -> None:
        for count in (1, 4, 100, 10_000):
            plan = many(count)
            self.open(plan)
            tested = plan.outcomes.count("t")
            wanted = {"bars": str(count), "tested": str(tested), "skipped": str(count - tested),
                      "whole": "0"}
            self.assertEqual(self.bars(), [wanted, wanted])
            shown = self.script("return document.querySelector('#counts').textContent")
            self.assertIn("%s chunk" % format(count, ",d"), shown)

    def test_there_is_something_to_see(self) -> None:
        """Dots of each outcome's colour are in the picture, and of no other outcome's."""
        # Higher than the range, whose colour lies over them.
        self.open(many(10_000, 2000))
        count = """
            const canvas = document.querySelector('canvas.bars');
            const style = getComputedStyle(document.documentElement);
            const wanted = style.getPropertyValue('--' + arguments[0]).trim()
              .match(/\\w\\w/g).map(h => parseInt(h, 16));
            const dots = canvas.getContext('2d')
              .getImageData(0, 0, canvas.width, canvas.height).data;
            let found = 0;
            for (let i = 0; i < dots.length; i += 4)
              found += wanted.every((part, n) => Math.abs(dots[i + n] - part) < 3);
            return found"""
        found = {name: self.driver.execute_script(count, name)
                 for name in ("skipped", "whole", "tested")}
        self.assertGreater(found["skipped"], 300)
        self.assertGreater(found["tested"], 10)
        self.assertEqual(found["whole"], 0)

    def test_a_script_in_a_text_is_only_text(self) -> None:
        with table({EVIL: "utf8", "a": "i32"}, 200) as made:
            self.open(evil_plan(made))
        self.assertIsNone(self.script("return window.hit || null"))
        self.assertEqual(self.script("return document.images.length"), 0)
        self.assertEqual(self.script("return document.scripts.length"), 2)
        name = self.script("return document.querySelector('#columns h2').textContent")
        self.assertIn("</script><script>window.hit = 1</script><img src=x", name)
        self.assertEqual(self.bars()[0]["bars"], "2")

    def test_the_window(self) -> None:
        self.open(many(1000))
        click = "document.querySelector('[data-zoom=%s]').click()"
        for button, wanted in (("in", 500), ("in", 250), ("out", 500), ("right", 500),
                               ("all", 1000)):
            self.script(click % button)
            self.assertEqual(self.bars()[0]["bars"], str(wanted))

    def test_the_chunk_under_the_pointer(self) -> None:
        from selenium.webdriver.common.action_chains import ActionChains

        self.open(many(5))
        canvas = self.driver.find_element("css selector", "canvas.bars")
        ActionChains(self.driver).move_to_element(canvas).perform()
        tip = self.script("return document.getElementById('tip').textContent")
        self.assertIn("chunk 2, rows: 10, tested", tip)
        self.assertIn("a: 2 to 5", tip)

    def test_light_and_dark(self) -> None:
        found = []
        self.open(many(4))
        for scheme in ("light", "dark"):
            feature = {"name": "prefers-color-scheme", "value": scheme}
            self.driver.execute_cdp_cmd("Emulation.setEmulatedMedia", {"features": [feature]})
            colour = "return getComputedStyle(document.body).backgroundColor"
            found.append(self.script(colour))
            self.assertEqual(self.bars()[0]["bars"], "4")
        self.assertEqual(len(set(found)), 2)
        self.assertEqual(self.driver.get_log("browser"), [])


if __name__ == "__main__":
    unittest.main()
