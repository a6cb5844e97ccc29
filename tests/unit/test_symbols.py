"""Tests how functions of C++ and variables are named, and how long names are cut."""
import os
import shutil
import subprocess
import unittest

from goodlock.agent.sites import shortened
from goodlock.agent.symbols import name_at, variables_of, without_arguments_of_templates
from written import InFolder

SOURCE = "static long first[4] = {1}; long second = 2; static char third; char *use(void) { first[1] = second; return &third; }\n"


class Functions(unittest.TestCase):
    def test_templates(self) -> None:
        for name, short in [
            ("transfer", "transfer"), ("void lock<A, B<C> >(A&, B<C>&)", "void lock(A&, B&)"),
            ("std::thread::_State_impl<std::thread::_Invoker<std::tuple<start()::{lambda()#1}> > >::_M_run()", "std::thread::_State_impl::_M_run()"),
            ("bool operator< <int>(A<int>, A<int>)", "bool operator< (A, A)"), ("operator<<(S&, T<int>)", "operator<<(S&, T)"),
            ("A<1>::operator->()", "A::operator->()"), ("A::operator<=>(A)", "A::operator<=>(A)"), ("f<(a>b)>()", "f<(a>b)>()"), ("a<b", "a<b"),
        ]:
            self.assertEqual(without_arguments_of_templates(name), short, name)

    def test_cut(self) -> None:
        for text, most, short in [("abcdefghijkl", 12, "abcdefghijkl"), ("abcdefghijklm", 12, "abcd..hijklm"), ("/a/long/folder/bank.c:35", 16, "/a/lo..bank.c:35")]:
            self.assertEqual(shortened(text, most), short)


@unittest.skipUnless(shutil.which("cc") and shutil.which("nm"), "there is no compiler, or no nm")
class Variables(InFolder):
    def setUp(self) -> None:
        super().setUp()
        self.write("variables.c", SOURCE)
        subprocess.run(["cc", "-shared", "-fPIC", "-o", "variables.so", "variables.c"], check=True)
        self.path = os.path.abspath("variables.so")
        self.begins = {variable.name: variable.begin for variable in variables_of(self.path)}

    def test_names(self) -> None:
        first, second = self.begins["first"], self.begins["second"]
        for offset, name in [(first, "first"), (first + 8, "first+0x8"), (first + 31, "first+0x1f"), (second, "second"), (second + 7, "second+0x7"),
                             (self.begins["third"], "third"), (0, "")]:
            self.assertEqual(name_at(self.path, offset), name)

    def test_stripped(self) -> None:
        """Only the variable that other files may use has a symbol left."""
        subprocess.run(["cc", "-s", "-shared", "-fPIC", "-o", "stripped.so", "variables.c"], check=True)
        self.assertIn("second", {variable.name for variable in variables_of(os.path.abspath("stripped.so"))})
        self.assertNotIn("first", {variable.name for variable in variables_of(os.path.abspath("stripped.so"))})

    def test_no_file(self) -> None:
        self.assertEqual((variables_of("/nowhere"), name_at("/nowhere", 8)), ((), ""))


if __name__ == "__main__":
    unittest.main()
