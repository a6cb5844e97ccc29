"""Tests from where files are named: the root of a project."""
import os
import unittest

from goodlock.locations import Root
from written import InFolder


class TopOfProject(unittest.TestCase):
    FILES = [
        ("inside", "/top/src/a.c", "src/a.c"),
        ("the root itself", "/top/", "/top"),
        ("outside", "/usr/include/mutex", "/usr/include/mutex"),
        ("a folder with a like name", "/top2/a.c", "/top2/a.c"),
        ("relative", "src/a.c", "src/a.c"),
        ("relative, with dots", "./src/../lib/a.c", "lib/a.c"),
        ("above the root", "../a.c", "../a.c"),
    ]

    def test_relative(self) -> None:
        for name, file, relative in self.FILES:
            with self.subTest(name):
                self.assertEqual(Root("/top").relative(file), relative)

    def test_slash(self) -> None:
        self.assertEqual(Root("/").relative("/src/a.c"), "src/a.c")

    def test_location(self) -> None:
        location = Root("/top").location("/top/src/a.c:7:12 in f(int, std::map<a, b>)")
        self.assertEqual(location, ("src/a.c:7:12 in f(int, std::map<a, b>)", "src/a.c", 7, "f(int, std::map<a, b>)"))
        self.assertEqual(Root("/top").location("bank+0x17"), ("bank+0x17", None, None, None))


class DefaultRoot(InFolder):
    def test_default(self) -> None:
        folder = os.path.realpath(".")
        os.makedirs("project/.git")
        os.makedirs("project/build")
        os.symlink("project", "link")
        os.chdir("project/build")
        self.assertEqual(Root().relative(f"{folder}/project/src/a.c"), "src/a.c")
        self.assertEqual(Root(f"{folder}/link").relative(f"{folder}/project/src/a.c"), "src/a.c")
        self.assertEqual(Root(f"{folder}/link").relative(f"{folder}/link/src/a.c"), "src/a.c")
        os.rmdir("../.git")
        self.assertEqual(Root().relative(f"{folder}/project/build/a.c"), "a.c")


if __name__ == "__main__":
    unittest.main()
