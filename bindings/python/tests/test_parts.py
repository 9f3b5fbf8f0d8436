"""The parts of made answers."""

import unittest

from smithy_bind import Fault, NoJob, Output, Request, Response, Routed
from smithy_bind._parts import parsed_requests, parsed_responses


class Requests(unittest.TestCase):
    def test_a_request_has_its_parts(self):
        text = b"PUT /b/x%0A?q=a%20b\nx-a: 1: 2\nx-b: \xc3\xa9\xff\nx-empty: \n\nline\n\nx-c: 3\n\xff"
        request = Request.parse(text)
        self.assertEqual(request.method, "PUT")
        self.assertEqual(request.target, "/b/x%0A?q=a%20b")
        self.assertEqual(request.headers, (("x-a", "1: 2"), ("x-b", "\xc3\xa9\xff"), ("x-empty", "")))
        self.assertEqual(request.header("X-A"), "1: 2")
        self.assertIsNone(request.header("x-c"))
        self.assertEqual(request.body, b"line\n\nx-c: 3\n\xff")

    def test_a_request_may_have_no_headers_and_no_body(self):
        self.assertEqual(Request.parse(b"GET /b\n\n"), Request("GET", "/b"))

    def test_other_texts_are_no_request(self):
        for text in (b"", b"GET", b"GET /b", b"GET\n\n", b"GET /b\n", b"GET /b\nx-a: 1\n", b"GET /b\nx-a\n\n"):
            with self.subTest(text), self.assertRaises(ValueError):
                Request.parse(text)


class Lines(unittest.TestCase):
    def test_a_line_tells_a_request_or_why_there_is_none(self):
        request = b'{"status":0,"method":"PUT","target":"/b","headers":[["x-a",{"base64":"/w=="}],["x-b","\xc3\xa9"]],"body":"\xc3\xa9"}\n'
        told = parsed_requests(request + b'{"status":3,"fault":"Custom: a"}\n{"status":2}\n')
        self.assertEqual(told[0], Request("PUT", "/b", (("x-a", "\xff"), ("x-b", "\xc3\xa9")), b"\xc3\xa9"))
        self.assertEqual((type(told[1]), told[1].line), (Fault, b"Custom: a\n"))
        self.assertEqual((type(told[2]), told[2].line), (NoJob, b""))
        self.assertEqual(parsed_requests(b""), [])

    def test_a_line_tells_a_value_or_why_there_is_none(self):
        told = parsed_responses(b'{"status":0,"value":{"a":1}}\n{"status":0,"error":"ex#Gone","value":{}}\n{"status":3,"fault":"Custom: a"}\n{"status":2}\n')
        self.assertEqual(told[:2], [Output({"a": 1}), Output({}, "ex#Gone")])
        self.assertEqual((type(told[2]), told[2].line), (Fault, b"Custom: a\n"))
        self.assertEqual((type(told[3]), told[3].line), (NoJob, b""))
        self.assertEqual(parsed_responses(b""), [])

    def test_other_texts_are_no_lines(self):
        for text in (b'{"status":2}', b"GET /b\n\n", b'{"status":0}\n', b"[]\n", b'{"status":3,"fault":1}\n'):
            with self.subTest(text), self.assertRaises(ValueError):
                parsed_requests(text)
            with self.subTest(text), self.assertRaises(ValueError):
                parsed_responses(text)


class Responses(unittest.TestCase):
    def test_a_response_has_its_parts(self):
        response = Response.parse(b'206\netag: "q"\n\n{}\n')
        self.assertEqual(response, Response(206, (("etag", '"q"'),), b"{}\n"))
        self.assertEqual(response.header("ETag"), '"q"')
        self.assertEqual(Response.parse(b"204\n\n"), Response(204))

    def test_other_texts_are_no_response(self):
        for text in (b"", b"206", b"206\n", b"206\nx-a\n\n", b"20\n\n", b"+20\n\n", b"2000\n\n"):
            with self.subTest(text), self.assertRaises(ValueError):
                Response.parse(text)


class Values(unittest.TestCase):
    def test_an_output_may_have_an_error(self):
        self.assertEqual(Output.parse(b'{"Code":206}\n'), Output({"Code": 206}))
        self.assertEqual(Output.parse(b"ex#Gone\n{}\n"), Output({}, "ex#Gone"))
        self.assertEqual(Output.parse(b'ex#Two\nlines\n{"a":"\\n"}\n'), Output({"a": "\n"}, "ex#Two\nlines"))

    def test_other_texts_are_no_output(self):
        for text in (b"", b"{}", b"{\n", b"\xff\n"):
            with self.subTest(text), self.assertRaises(ValueError):
                Output.parse(text)

    def test_a_route_has_an_operation_and_an_input(self):
        self.assertEqual(Routed.parse(b'ex#Get\n{"Bucket":"b"}\n'), Routed("ex#Get", {"Bucket": "b"}))
        with self.assertRaises(ValueError):
            Routed.parse(b"{}\n")
