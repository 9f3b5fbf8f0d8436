"""Calls of the library that SMITHY_BIND_LIBRARY names."""

import json
import pathlib
import pickle
import unittest
from concurrent.futures import ThreadPoolExecutor
from unittest import mock

import smithy_bind
from smithy_bind import _library

EXAMPLES = pathlib.Path(__file__).resolve().parents[3] / "examples"


def example(name):
    return (EXAMPLES / f"{name}.json").read_text()


class Calls(unittest.TestCase):
    @classmethod
    def setUpClass(cls):
        cls.library = smithy_bind.Library()

    def test_a_job_is_text_bytes_or_what_lends_bytes(self):
        wanted = smithy_bind.Request("GET", "/b/x/y%20z?max=3", (("x-id", "7"),), b"")
        text = example("get_object")
        data = text.encode()
        for job in (text, data, bytearray(data), memoryview(data)):
            self.assertEqual(self.library.request(job), wanted)

    def test_a_job_is_a_dict(self):
        job = json.loads(example("get_object"))
        job["input"] = {"Bucket": "b", "Key": "é", "Id": -7}
        self.assertEqual(self.library.request(job), smithy_bind.Request("GET", "/b/%C3%A9", (("x-id", "-7"),), b""))

    def test_a_value_is_what_json_has(self):
        job = json.loads(example("get_object"))
        job["request"] = {"method": "GET", "target": "/b/%C3%A9", "headers": [["x-id", "-7"]]}
        self.assertEqual(self.library.recover(job), {"Bucket": "b", "Id": -7, "Key": "é"})

    def test_many_inputs_have_their_requests(self):
        job = json.loads(example("get_object"))
        given = [{"Bucket": "b", "Key": "é", "Id": -7}, {"Bucket": "b"}, 5]
        job["inputs"] = given
        made = self.library.requests(job)
        self.assertEqual(made[0], self.library.request({**job, "input": given[0]}))
        with self.assertRaises(smithy_bind.Fault) as raised:
            self.library.request({**job, "input": given[1]})
        self.assertEqual((type(made[1]), made[1].line), (smithy_bind.Fault, raised.exception.line))
        self.assertEqual(type(made[2]), smithy_bind.NoJob)
        self.assertTrue(self.library.explain("requests", job).startswith("NoJob: /inputs/2: "))

    def test_a_response_is_a_value(self):
        wanted = json.loads((EXAMPLES / "get_object_response.txt").read_bytes())
        self.assertEqual(self.library.response(example("get_object_response")), smithy_bind.Output(wanted))

    def test_many_responses_have_their_values(self):
        job = json.loads(example("get_space_error"))
        name, value = (EXAMPLES / "get_space_error.txt").read_text().splitlines()
        response = job.pop("response")
        code = job.pop("code")
        job["responses"] = [{"response": response, "code": code}, {"response": response, "code": "Gone"}, {"code": code}]
        read = self.library.responses(job)
        self.assertEqual(read[0], smithy_bind.Output(json.loads(value), name))
        self.assertEqual((type(read[1]), read[1].line), (smithy_bind.Fault, b"UnknownMember: unknown member: Gone\n"))
        self.assertEqual(type(read[2]), smithy_bind.NoJob)
        self.assertTrue(self.library.explain("responses", job).startswith("NoJob: /responses/2: "))

    def test_an_error_has_its_name(self):
        name, value = (EXAMPLES / "get_space_error.txt").read_text().splitlines()
        self.assertEqual(self.library.response(example("get_space_error")), smithy_bind.Output(json.loads(value), name))

    def test_a_request_is_posted(self):
        request = self.library.rpc(example("put_item_rpc"))
        self.assertEqual((request.method, request.header("content-type")), ("POST", "application/json"))
        self.assertEqual(len(request.body), int(request.header("content-length")))

    def test_a_request_is_recovered(self):
        wanted = json.loads((EXAMPLES / "put_object_recovered.txt").read_bytes())
        self.assertEqual(self.library.recover(example("put_object_recovered")), wanted)

    def test_a_request_is_routed(self):
        name, value = (EXAMPLES / "eks_routed.txt").read_text().splitlines()
        self.assertEqual(self.library.route(example("eks_routed")), smithy_bind.Routed(name, json.loads(value)))

    def test_an_output_becomes_a_response(self):
        response = self.library.serve(example("get_object_answered"))
        text = (EXAMPLES / "get_object_answered.txt").read_bytes()
        self.assertEqual((response.status, response.body), (int(text[:3]), text.partition(b"\n\n")[2]))
        self.assertEqual(int(response.header("content-length")), len(response.body))

    def test_calls_run_in_threads(self):
        jobs = [example("get_object"), example("put_item_rpc")] * 20
        with ThreadPoolExecutor(4) as threads:
            answers = list(threads.map(self.library.answer, ["request", "rpc"] * 20, jobs))
        self.assertEqual(len(set(answers)), 2)


class Refusals(unittest.TestCase):
    @classmethod
    def setUpClass(cls):
        cls.library = smithy_bind.Library()

    def test_bytes_that_are_no_job(self):
        with self.assertRaises(smithy_bind.NoJob) as raised:
            self.library.request("{")
        refusal = raised.exception
        self.assertEqual((refusal.status, refusal.kind, refusal.line), (2, "NotJson", b"NotJson: byte 1\n"))
        self.assertEqual(pickle.loads(pickle.dumps(refusal)).line, refusal.line)
        self.assertIn("docs/JOBS.md", str(smithy_bind.NoJob()))

    def test_a_job_by_a_protocol_of_aws(self):
        job = json.loads(example("get_object"))
        self.assertEqual(self.library.aws_request(job), self.library.request(job))
        job["protocol"] = "aws.protocols#restXml"
        with self.assertRaises(smithy_bind.NoJob) as raised:
            self.library.aws_request(job)
        self.assertEqual(raised.exception.line, b"")
        with self.assertRaises(KeyError):
            self.library.explain("aws request", job)

    def test_a_job_is_explained(self):
        job = json.loads(example("get_object"))
        self.assertEqual(self.library.explain("request", job), "Job")
        job["operation"] = "Get"
        line = self.library.explain("request", job)
        self.assertTrue(line.startswith("NoJob: /operation: "), line)
        with self.assertRaises(smithy_bind.NoJob) as raised:
            self.library.request(job)
        self.assertEqual(str(raised.exception), line)
        with self.assertRaises(smithy_bind.TooLong):
            self.library.explain("request", b" " * 16_777_217)

    def test_what_is_no_job_at_all(self):
        with self.assertRaisesRegex(TypeError, "a str, bytes or a dict"):
            self.library.request(5)
        with self.assertRaises(ValueError):
            self.library.request({"input": float("nan")})

    def test_a_fault_has_its_line(self):
        with self.assertRaises(smithy_bind.Fault) as raised:
            self.library.request(example("get_object_without_key"))
        fault = raised.exception
        self.assertEqual(fault.line, (EXAMPLES / "get_object_without_key.txt").read_bytes())
        self.assertEqual(f"{fault.kind}: {fault.text}\n".encode(), fault.line)
        self.assertEqual(pickle.loads(pickle.dumps(fault)).line, fault.line)

    def test_a_job_that_is_too_long(self):
        with self.assertRaises(smithy_bind.TooLong):
            self.library.request(b" " * 16_777_217)

    def test_each_status_has_its_refusal(self):
        kinds = {2: smithy_bind.NoJob, 3: smithy_bind.Fault, 6: MemoryError, 7: smithy_bind.TooLong, 9: smithy_bind.UnknownAnswer}
        for status, kind in kinds.items():
            with self.subTest(status), self.assertRaises(kind):
                _library._output(status, b"Custom: a\n")

    def test_a_text_without_the_form_of_an_answer(self):
        with mock.patch.object(_library, "_called", return_value=(0, b"GET")), self.assertRaises(smithy_bind.UnknownAnswer):
            self.library.request("{}")

    def test_a_library_that_is_not_there(self):
        with self.assertRaisesRegex(FileNotFoundError, "set SMITHY_BIND_LIBRARY"):
            smithy_bind.Library("nowhere.so")
