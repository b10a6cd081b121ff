"""What a form sent."""
import unittest

from cepage import entries_sent, run

from . import example

URLENCODED = "application/x-www-form-urlencoded"
MULTIPART = "multipart/form-data; boundary=B"


def part(name: str, value: str) -> str:
    return f'--B\r\nContent-Disposition: form-data; name="{name}"\r\n\r\n{value}\r\n'


class Sent(unittest.TestCase):
    def test_a_query(self) -> None:
        for url, entries in [
            ("http://h/?a=b+c&d=%26%C3%A1#e?f=g", (("a", "b c"), ("d", "&á"))),
            ("http://h/?", ()),
            ("http://h/", ()),
            ("http://h/??a=b", (("?a", "b"),)),
            ("http://h/?=&a=", (("", ""), ("a", ""))),
        ]:
            self.assertEqual(entries_sent(url, None, None), entries, url)

    def test_a_body(self) -> None:
        for media_type, body, entries in [
            (URLENCODED, "a=b+c&a=%3D", (("a", "b c"), ("a", "="))),
            (URLENCODED, "", ()),
            ("text/plain", "a=b=c\r\nd=\r\n", (("a", "b=c"), ("d", ""))),
            ("text/plain", "", ()),
            ("text/plain", "a\r\nb=c\r\n", None),
            ("text/plain", "a=b", None),
            (MULTIPART, part("a%22\\", "x\r\n--C\r\n") + part("", "é") + "--B--\r\n", (("a%22\\", "x\r\n--C\r\n"), ("", "é"))),
            (MULTIPART, "--B--\r\n", ()),
            (MULTIPART, part("a", "b"), None),
            (MULTIPART, "--B\r\n\r\nb\r\n--B--\r\n", None),
            (MULTIPART, "x\r\n" + part("a", "b") + "--B--\r\n", None),
            (MULTIPART, part("a", "b").replace("form", "from") + "--B--\r\n", None),
            (MULTIPART, "", None),
            ("application/json", "{}", None),
        ]:
            self.assertEqual(entries_sent("http://h/", media_type, body), entries, body)

    def test_a_form_that_sends_by_each_encoding(self) -> None:
        sent = run(example("submission/encodings.script")).submissions()
        entries = (("full name", "Ána Lee"), ("note", "50% & more\r\n1 + 1 = 2"), ('a"b\r\nc', "*-._~"))
        for it in sent:
            if it.media_type is None or it.media_type == URLENCODED:
                self.assertEqual(it.entries, entries, it.text)
            elif it.media_type == "text/plain":
                self.assertIsNone(it.entries, it.text)
            else:
                self.assertEqual(it.entries, (*entries[:2], ("a%22b%0D%0Ac", "*-._~")), it.text)
        self.assertEqual(len({it.media_type for it in sent}), 4)
