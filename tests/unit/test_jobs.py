"""Tests which traces are found, which results are still right, and the form of a file of hosts."""
import json
import os
from argparse import Namespace

from goodlock.errors import InputError
from goodlock.jobs import TraceFile, check_hosts, command_of, fault_of, paths_in, traces_in
from written import InFolder


class Traces(InFolder):
    def test_paths(self) -> None:
        for name in ("b/2.trace", "b/1.trace", "b/a/3.trace", "b/notes.txt", "alone"):
            os.makedirs(os.path.dirname(name) or ".", exist_ok=True)
            self.write(name, "0f1\n")
        self.assertEqual(list(paths_in(["b", "alone"])), ["b/1.trace", "b/2.trace", "b/a/3.trace", "alone"])
        with self.assertRaises(FileNotFoundError):
            list(paths_in(["missing"]))

    def test_once(self) -> None:
        self.write("1.trace", "0f1\n")
        self.assertEqual([trace.path for trace in traces_in([".", "1.trace"], "out")], ["1.trace"])

    def test_result(self) -> None:
        trace = TraceFile(self.write("1.trace", "0f1\n"), "out")
        right = {"bound": 2, "stamp": trace.stamp, "numbers": {}}
        os.makedirs(os.path.dirname(trace.where))
        for name, text, is_right in [
            ("a result", json.dumps(right), True),
            ("a fault", json.dumps({"bound": 2, "stamp": trace.stamp, "fault": "not done after 1 seconds"}), True),
            ("another bound", json.dumps({**right, "bound": 3}), False),
            ("another trace", json.dumps({**right, "stamp": "1-1"}), False),
            ("an earlier form", json.dumps({"bound": 2, "stamp": trace.stamp, "length": 1}), False),
            ("a part", json.dumps(right)[:-3], False),
            ("a list", "[]", False),
            ("empty", "", False),
        ]:
            with self.subTest(name):
                self.write(trace.where, text)
                self.assertEqual(trace.read(2), json.loads(text) if is_right else None)
        os.remove(trace.where)
        self.assertIsNone(trace.read(2))


class Jobs(InFolder):
    def test_fault(self) -> None:
        for name, command, fault in [
            ("none", ["true"], None),
            ("the last line of its errors", ["sh", "-c", "echo one >&2; echo two >&2; exit 3"], "two"),
            ("its output", ["sh", "-c", "echo refused 1 Full; exit 1"], "refused 1 Full"),
            ("its status", ["sh", "-c", "exit 3"], "sh ended with status 3"),
            ("too long", ["sleep", "60"], "not done after 1 seconds"),
        ]:
            with self.subTest(name), open("out", "w+b") as out:
                self.assertEqual(fault_of(command, Namespace(timeout=1, memory=0), out), fault)

    def test_command(self) -> None:
        args = Namespace(bound=3, timeout=7, memory=100, out=".", hosts=None, jobs=2)
        command = command_of(args, "remote")
        self.assertEqual(command[:8] + command[-4:], ["parallel", "--will-cite", "--colsep", "\\t", "--arg-file", "-", "--joblog", "joblog",
                                                       "{4}", "--result", "{3}", "{1}"])
        self.assertEqual(command[8:10], ["--jobs", "2"])
        self.assertTrue(command[10].endswith("tools/many --bound 3 --timeout 7 --memory 100 --no-config --stamp"), command[10])
        self.write("joblog", "")
        self.assertEqual(command_of(args, "remote")[7], "+joblog")
        self.assertIn("bundle/tools/many --bound 3 --timeout 7 --memory 100 --no-config --stamp",
                      command_of(Namespace(**{**vars(args), "hosts": "hosts"}), "remote"))


class Hosts(InFolder):
    def test_hosts(self) -> None:
        check_hosts(self.write("hosts", "# two\n8/build1\n\n4/ssh -p 2222 user@build2\n"))
        for line, message in [
            ("build1", "hosts:2: build1: not JOBS/HOST, such as 4/build1"),
            ("0/build1", "hosts:2: 0/build1: not JOBS/HOST, such as 4/build1"),
            ("2/:", "hosts:2: 2/:: not JOBS/HOST, such as 4/build1"),
        ]:
            with self.subTest(line), self.assertRaises(InputError) as raised:
                check_hosts(self.write("hosts", f"1/here\n{line}\n"))
            self.assertEqual(str(raised.exception), message)
        with self.assertRaises(InputError) as raised:
            check_hosts(self.write("hosts", "# none\n"))
        self.assertEqual(str(raised.exception), "hosts: there is no host: a line is JOBS/HOST")
