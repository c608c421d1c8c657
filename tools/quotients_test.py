#!/usr/bin/env python3
"""tools/quotients_test.py: tests tools/quotients.py on every form of a quotient, on today's functions with the quotient
that stood there before W-206, and on machine code that divides."""
import os
import subprocess
import sys
import tempfile
import unittest

sys.dont_write_bytecode = True
import quotients

# Name, what its caller has to see to, body; what is told of it.
FORMS = [
    ("divides(a: u64, b: u64) -> u64", "0 < b", "a / b", ["div"]),
    ("takes_the_remainder(a: u64, b: u64) -> u64", "0 < b", "a % b", ["rem"]),
    ("divides_lengths(a: usize, b: usize) -> usize", "0 < b", "a / b", ["div"]),
    ("divides_signed(a: i64, b: i64) -> i64", "", "if 0 < b { a / b } else { a }", ["div"]),
    ("by_ten(a: u64) -> u64", "", "a / 10", ["div"]),
    ("by_a_shift(a: u64, j: u64) -> u64", "j < 64", "let d = 1u64 << j; if 0 < d { a / d } else { a }", ["div"]),
    ("by_a_field(a: Sizes) -> u64", "0 < a.wide", "1000 / a.wide", ["div"]),
    ("twice(a: u64, b: u64) -> u64", "1 < b", "a / b + a % b", ["div", "rem"]),
    ("in_a_loop(a: u64) -> u64", "", "let mut r = a; for i in 0..8u64 { r /= i + 3; } r", ["div"]),
    ("in_a_branch(a: u64, b: u64) -> u64", "", "if a < b { b % (a + 1) } else { a }", ["rem"]),
    ("by_two_calls(a: u64, b: u64) -> u64", "0 < b", "by_a_call(a, b)", ["div"]),
    ("by_a_call(a: u64, b: u64) -> u64", "0 < b", "divides(a, b)", ["div"]),
    ("by_a_method(a: u64, b: u64) -> u64", "0 < b", "Sizes { wide: b }.part_of(a)", ["div"]),
    ("by_a_bound(a: u64, b: u64) -> u64", "0 < b", "by_whatever(&Sizes { wide: b }, a)", ["div"]),
    ("by_powers_of_two(a: u64) -> u64", "", "a / 256 / 4 + a % 65536 / 2 + (a >> 3) / 1", []),
    ("of_32_bits(a: u32, b: u32) -> u32", "0 < b", "if b < 5 { a % 1000 } else { a / b }", []),
    ("of_floats(a: f64, b: f64) -> f64", "", "a / b", []),
    ("of_nothing(a: u64, b: u64) -> u64", "a < 65536 × b < 65536", "a * b + a - a", []),
    # `nearest::nearest_quotient` before W-206.
    ("before(a: u64, b: u64) -> u64", "0 < b × 2 * a + 2 * b < 2 ^ 64", "(2 * a + b) / (2 * b)", ["div"]),
    ("calls(a: u64) -> u64", "", "is_called(a)", []),
    ("is_called(a: u64) -> u64", "", "a", []),
]

REST = """#![tactic(auto)]
ghost use Rattle.std.specs.Prelude.{◌≡◌, ◌<◌, ◌+◌, ◌*◌, ◌^◌};
#[derive(Clone, Copy)]
pub struct Sizes { pub wide: u64 }
impl Sizes {
    pub fn part_of(self, a: u64) -> u64 requires { 0 < self.wide } { a / self.wide }
}
pub trait Part {
    fn of(&self, a: u64) -> u64;
}
impl Part for Sizes {
    fn of(&self, a: u64) -> u64 { let wide = self.wide; if 0 < wide { a / wide } else { a } }
}
pub fn by_whatever<P: Part>(p: &P, a: u64) -> u64 { p.of(a) }
"""


def forms():
    """The functions of a crate that has all forms."""
    source = REST
    for head, wanted, body, _ in FORMS:
        source += f"pub fn {head}{f' requires {{ {wanted} }}' if wanted else ''} {{ {body} }}\n"
    with tempfile.TemporaryDirectory() as folder:
        crate = os.path.join(folder, "crates", "forms")
        os.makedirs(os.path.join(crate, "src"))
        for path, text in (("crates.txt", "forms:\n"), ("crates/forms/src/lib.rt", source)):
            with open(os.path.join(folder, path), "w", encoding="utf-8") as f:
                f.write(text)
        run = subprocess.run(["rt", "lib"], cwd=crate, capture_output=True, text=True)
        if run.returncode != 0:
            sys.exit(f"quotients_test: the forms are not proved\n{run.stdout}{run.stderr}")
        return quotients.functions_in(os.path.join(crate, "out/rlib/forms.rlib/toolchain/mir.json"))


class Quotients(unittest.TestCase):
    @classmethod
    def setUpClass(cls):
        cls.forms = forms()

    def test_every_form(self):
        for head, _, _, told in FORMS:
            name = f"forms::{head.split('(')[0]}"
            with self.subTest(name):
                _, found = quotients.followed(self.forms, [name])
                self.assertEqual([line.split(": ")[1] for line in found], told)

    def test_the_quotient_before(self):
        functions = quotients.built()
        functions["nearest::nearest_quotient"] = self.forms["forms::before"]
        entries = quotients.entries_of(functions)
        evaluations = {"grillenhelm::grillenhelm_evaluate", "grillenhelm::grillenhelm_evaluate_held"}
        self.assertLessEqual(evaluations, set(entries))
        for entry in evaluations:
            self.assertEqual(quotients.followed(functions, [entry])[1], ["nearest::nearest_quotient: div"])

    def test_code_that_is_not_there(self):
        functions = {name: code for name, code in self.forms.items() if name != "forms::is_called"}
        self.assertEqual(quotients.followed(functions, ["forms::calls"])[1], ["forms::is_called: its code is not there"])

    def test_machine_code(self):
        for code, count in (
            ("unsigned long f(unsigned long a, unsigned long b) { return a / b; }", 1),
            ("long f(long *a, long *b) { return *a % *b; }", 1),
            ("unsigned __int128 f(unsigned __int128 a, unsigned __int128 b) { return a / b; }", 1),
            ("double f(double a, double b) { return a / b; }", 0),
            ("unsigned long f(unsigned long a) { return a / 4096; }", 0),
        ):
            with self.subTest(code), tempfile.TemporaryDirectory() as folder:
                path = os.path.join(folder, "code.o")
                subprocess.run(["cc", "-O2", "-x", "c", "-c", "-", "-o", path], input=code, text=True, check=True)
                found = quotients.instructions_in(quotients.said("objdump", "-d", path), quotients.said("nm", "-u", path))
                self.assertEqual(len(found), count)


if __name__ == "__main__":
    os.chdir(os.path.join(os.path.dirname(os.path.abspath(__file__)), ".."))
    unittest.main()
