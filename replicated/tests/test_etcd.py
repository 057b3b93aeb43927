"""The client of etcd: TLS, users, answers that are too long, and what one transaction compares."""

from __future__ import annotations

import os
import shutil
import ssl
import subprocess
import tempfile
import time
import unittest

from confstore_replicated import etcd as module
from confstore_replicated.etcd import Access, Denied, Etcd, Item, Unavailable
from confstore_replicated.stream import Stream

from .fake_etcd import FakeEtcd


class EtcdTest(unittest.TestCase):
    def member(self, context: ssl.SSLContext | None = None, password: str | None = None) -> FakeEtcd:
        member = FakeEtcd(context, password)
        self.addCleanup(member.close)
        return member

    def client(self, member: FakeEtcd, access: Access | None = None, timeout: float = 0.2) -> Etcd:
        etcd = Etcd([member.address], timeout, access)
        self.addCleanup(etcd.close)
        return etcd


    def keys_in(self, stream: Stream) -> list[bytes]:
        """The keys of the items that come next."""
        items = stream.take(5, 10)
        assert items is not None
        return [item.key for item in items]


class Users(EtcdTest):
    def test_a_token_is_fetched_once_and_again_when_it_is_over(self) -> None:
        member, access = self.member(password="secret"), Access(user="app", password="secret")
        first, second = self.client(member, access), self.client(member, access)
        first.put(b"a", b"x")
        self.assertEqual(second.get(b"a"), b"x")
        self.assertEqual(len(member.tokens), 1)
        member.tokens[:] = ["another"]
        self.assertEqual((first.get(b"a"), second.get(b"a")), (b"x", b"x"))
        self.assertEqual(len(member.tokens), 2)

    def test_streams(self) -> None:
        member, access = self.member(password="secret"), Access(user="app", password="secret")
        etcd = self.client(member, access)
        stream = Stream(etcd, b"log/", 2)
        self.assertTrue(stream.has_begun(10))
        etcd.put(b"log/a", b"x")
        self.assertEqual(self.keys_in(stream), [b"log/a"])
        member.tokens[:] = ["another"]
        member.restart()
        self.assertIsNone(stream.take(5, 10))
        self.assertFalse(Stream(etcd, b"log/", 2).has_begun(10))
        etcd.get(b"a")
        stream = Stream(etcd, b"log/", 2)
        self.assertTrue(stream.has_begun(10), "after another call has fetched a token")
        stream.close()

    def test_a_wrong_password(self) -> None:
        for access in (Access(user="app", password="wrong"), Access(user="other", password="secret")):
            began = time.monotonic()
            with self.assertRaises(Denied):
                self.client(self.member(password="secret"), access, 30).get(b"a")
            self.assertLess(time.monotonic() - began, 5, "it is not tried again and again")

    def test_no_user(self) -> None:
        with self.assertRaises(Unavailable) as caught:
            self.client(self.member(password="secret")).get(b"a")
        self.assertIn("token", str(caught.exception))


@unittest.skipIf(shutil.which("openssl") is None, "needs openssl")
class Tls(EtcdTest):
    def setUp(self) -> None:
        holder = tempfile.TemporaryDirectory()
        self.addCleanup(holder.cleanup)
        self.top = holder.name
        self.make("authority", "/CN=authority", "-x509")
        self.make("member", "/CN=member", "-addext", "subjectAltName=IP:127.0.0.1", signed=True)
        self.make("client", "/CN=client", signed=True)
        self.make("stranger", "/CN=authority", "-x509")

    def path(self, name: str) -> str:
        return os.path.join(self.top, name)

    def make(self, name: str, subject: str, *more: str, signed: bool = False) -> None:
        key = self.path(f"{name}.key")
        words = ["openssl", "req", "-newkey", "rsa:2048", "-nodes", "-subj", subject, "-keyout", key]
        if signed:
            request, names = self.path(f"{name}.csr"), self.path(f"{name}.names")
            subprocess.run([*words, "-out", request, *more], check=True, capture_output=True)
            with open(names, "w", encoding="ascii") as file:
                file.write("subjectAltName=IP:127.0.0.1\n")
            words = ["openssl", "x509", "-req", "-in", request, "-CA", self.path("authority.crt"), "-extfile", names]
            words += ["-CAkey", self.path("authority.key"), "-CAcreateserial"]
            more = ()
        subprocess.run([*words, *more, "-days", "2", "-out", self.path(f"{name}.crt")], check=True, capture_output=True)

    def tls_member(self, asks_for_certificate: bool = False) -> FakeEtcd:
        context = ssl.SSLContext(ssl.PROTOCOL_TLS_SERVER)
        context.load_cert_chain(self.path("member.crt"), self.path("member.key"))
        if asks_for_certificate:
            context.verify_mode = ssl.CERT_REQUIRED
            context.load_verify_locations(self.path("authority.crt"))
        return self.member(context=context)

    def test_authorities(self) -> None:
        member = self.tls_member()
        etcd = self.client(member, Access(self.path("authority.crt")), 5)
        etcd.put(b"log/a", b"x")
        self.assertEqual(etcd.get(b"log/a"), b"x")
        stream = Stream(etcd, b"log/", 1)
        self.assertEqual(self.keys_in(stream), [b"log/a"])
        stream.close()
        for other in (Access(self.path("stranger.crt")), None):
            with self.assertRaises(Unavailable):
                self.client(member, other).get(b"a")

    def test_certificates_of_clients(self) -> None:
        member = self.tls_member(asks_for_certificate=True)
        mine = Access(self.path("authority.crt"), self.path("client.crt"), self.path("client.key"))
        self.assertIsNone(self.client(member, mine, 5).get(b"a"))
        with self.assertRaises(Unavailable):
            self.client(member, Access(self.path("authority.crt"))).get(b"a")


class Answers(EtcdTest):
    def test_an_answer_that_is_too_long(self) -> None:
        self.addCleanup(setattr, module, "LONGEST_ANSWER", module.LONGEST_ANSWER)
        module.LONGEST_ANSWER = 20_000
        member = self.member()
        etcd = self.client(member)
        for number in range(10):
            etcd.put(b"log/%d" % number, b"x" * 5_000)
        look = etcd.look(b"log/", b"base", 0, None, most=8)
        self.assertEqual([item.key for item in look.after], [b"log/0", b"log/1"], "fewer are asked for")
        etcd.put(b"log/0", b"x" * 20_000)
        with self.assertRaises(Unavailable):
            etcd.look(b"log/", b"base", 0, None, most=8)

    def test_a_base_needs_the_entry(self) -> None:
        member = self.member()
        etcd = self.client(member)
        etcd.put(b"log/a", b"x")
        entry = Item(b"log/a", b"x", 2, 2)
        self.assertFalse(etcd.replace(b"base", b"new", b"old", entry))
        for other in (entry._replace(value=b"y"), entry._replace(created=3), entry._replace(key=b"log/b")):
            self.assertFalse(etcd.replace(b"base", b"new", None, other))
        self.assertFalse(etcd.replace(b"base", b"new", None, entry, [b"log/a", b"part"]))
        self.assertTrue(etcd.replace(b"base", b"new", None, entry, [b"log/a"]))
        self.assertFalse(etcd.replace(b"base", b"newer", None, entry))
        self.assertEqual(etcd.get(b"base"), b"new")

    def test_what_is_taken_out(self) -> None:
        member = self.member()
        etcd = self.client(member)
        for key in (b"base", b"a", b"b", b"c"):
            etcd.put(key, b"x")  # revisions 2 to 5
        good = b"base", b"x"
        self.assertFalse(etcd.remove([b"a", b"b"], 4, [], (b"base", b"y")))
        self.assertFalse(etcd.remove([b"a", b"b"], 3, [], good), "b is newer")
        self.assertFalse(etcd.remove([b"a"], 9, [b"c"], good), "c is there")
        self.assertTrue(etcd.remove([b"a", b"b"], 4, [b"d"], good))
        self.assertFalse(etcd.remove_between(b"c", b"d", (b"base", None)))
        self.assertTrue(etcd.remove_between(b"c", b"d", good))
        self.assertEqual([etcd.get(key) for key in (b"a", b"b", b"c", b"base")], [None, None, None, b"x"])

    def test_names_and_entries(self) -> None:
        """A name that is there, or an entry alone, keeps another from being made."""
        member = self.member()
        etcd = self.client(member)
        made = etcd.create(b"ids/a", b"digest", b"log/a", lambda: b"entry")
        self.assertEqual(made, (2, b"entry", b"digest"))
        self.assertEqual(etcd.create(b"ids/a", b"other", b"log/a", lambda: b"new"), (2, b"entry", b"digest"))
        etcd.remove([b"log/a"], 9, [], (b"base", None))
        self.assertEqual(etcd.create(b"ids/a", b"other", b"log/a", lambda: b"new"), (2, None, b"digest"))
        etcd.put(b"log/b", b"old")
        self.assertEqual(etcd.create(b"ids/b", b"other", b"log/b", lambda: b"new"), (4, b"old", None))


if __name__ == "__main__":
    unittest.main()
