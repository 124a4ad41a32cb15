"""The forum of `demo/forum`: visitors who use it, and the mistakes of three pages, which its policies and guards stop."""
import hashlib
import re
import shutil
import subprocess
import unittest
from dataclasses import dataclass
from urllib.parse import urlencode

from support import TOOLS, Folder, engine_or_skip
from resin_tools.records import end_text, piece_text, read_answers

FORUM = TOOLS.parent / "demo" / "forum" / "site"


@dataclass
class Visitor:
    """A visitor, with the session that the site gives."""

    name: str
    password: str

    @property
    def sid(self) -> str:
        return hashlib.md5(f"change this in your copy|{self.name}|{self.password}".encode()).hexdigest()


@dataclass
class Page:
    """What a request got."""

    status: int
    head: str
    body: str


ANN, BOB, ADMIN = Visitor("ann", "s3cret"), Visitor("bob", "hunter2"), Visitor("admin", "rootroot")


def get(target: str, visitor: Visitor | None = None) -> bytes:
    return f"GET {target} HTTP/1.1\r\nHost: forum\r\n{_cookie(visitor)}\r\n".encode()


def post(target: str, visitor: Visitor | None = None, **fields: str) -> bytes:
    body = urlencode(fields)
    form = f"Content-Type: application/x-www-form-urlencoded\r\nContent-Length: {len(body)}\r\n"
    return f"POST {target} HTTP/1.1\r\nHost: forum\r\n{_cookie(visitor)}{form}\r\n{body}".encode()


def _cookie(visitor: Visitor | None) -> str:
    return f"Cookie: sid={visitor.sid}\r\n" if visitor else ""


class Forum(Folder):
    def setUp(self) -> None:
        super().setUp()
        self.engine = engine_or_skip()
        shutil.copytree(FORUM, self.folder / "site")
        visitors = [ANN, BOB, ADMIN]
        self.serve(*[post("/signup.php", name=it.name, mail=f"{it.name}@foo.com", password=it.password) for it in visitors])
        self.serve(*[post("/login.php", name=it.name, password=it.password) for it in visitors])

    def serve(self, *requests: bytes) -> list[Page]:
        """Serves the requests in turn, by an engine of their own."""
        trace = b"".join(piece_text(1, it) for it in requests) + end_text(1)
        done = subprocess.run([self.engine, "serve"], cwd=self.folder, input=trace, capture_output=True, timeout=120, check=False)
        self.assertEqual((done.returncode, done.stderr), (0, b""))
        heads = [it.response.decode().split("\r\n\r\n", 1) for it in read_answers(done.stdout)]
        return [Page(int(head[9:12]), head, body) for head, body in heads]

    def one(self, request: bytes) -> Page:
        [page] = self.serve(request)
        return page

    @property
    def denials(self) -> str:
        return (self.folder / "denial.log").read_text()

    def test_a_login_gives_the_session_and_a_wrong_password_none(self):
        right, wrong = self.serve(post("/login.php", name="ann", password="s3cret"), post("/login.php", name="ann", password="x"))
        self.assertEqual((right.status, wrong.status), (302, 200))
        self.assertIn(f"Set-Cookie: sid={ANN.sid};", right.head)
        self.assertNotIn("Set-Cookie", wrong.head)
        self.assertIn("No such name and password.", wrong.body)
        self.assertIn("<b>ann</b>", self.one(get("/", ANN)).body)
        self.assertIn("Log in to post.", self.one(get("/")).body)

    def test_a_name_is_taken_once(self):
        self.assertIn("This name is taken.", self.one(post("/signup.php", name="ann", mail="a@b", password="abcd")).body)

    def test_the_board_has_posts_with_replies(self):
        first, second = self.serve(post("/post.php", ANN, post="Hello & welcome"), post("/post.php", BOB, post="Hi <ann>", reply_to="1"))
        self.assertEqual((first.status, second.status), (302, 302))
        body = self.one(get("/")).body
        self.assertRegex(body, r'<article id="p1"><b>ann</b><p>Hello &amp; welcome</p>\n<blockquote><b>bob</b> Hi &lt;ann&gt;</blockquote>')
        self.assertEqual(self.denials, "")

    def test_a_visitor_without_login_posts_nothing(self):
        page = self.one(post("/post.php", post="x"))
        self.assertEqual((page.status, "Location: /login.php" in page.head), (302, True))
        self.assertNotIn("<article", self.one(get("/")).body)

    def test_a_note_is_shown_to_its_owner_alone(self):
        self.serve(post("/notes.php", ANN, note="my diary"))
        own, of_bob, of_nobody = self.serve(get("/note.php?id=1", ANN), get("/note.php?id=1", BOB), get("/note.php?id=1"))
        self.assertIn("<p>my diary</p>", own.body)
        for page in (of_bob, of_nobody):
            self.assertEqual((page.status, page.body), (500, "Uncaught PolicyException\n"))
        self.assertEqual(re.findall(r"channel=(\w+) policy=(\w+)#", self.denials), [("http", "OwnNote")] * 2)
        self.assertNotIn("diary", (self.folder / "denial.log").read_text())

    def test_a_password_leaves_by_mail_to_its_owner_alone(self):
        sent, printed = self.serve(post("/reminder.php", name="ann"), post("/reminder.php", name="ann", debug="1"))
        self.assertEqual((sent.status, printed.status, printed.body), (200, 500, "Uncaught PolicyException\n"))
        self.assertIn("ann@foo.com\nYour password\ns3cret\n", (self.folder / "outbox.txt").read_text())
        self.assertEqual(re.findall(r"channel=(\w+) policy=(\w+)#", self.denials), [("http", "Password")])

    def test_a_script_in_a_post_is_refused_where_it_is_not_escaped(self):
        self.serve(post("/post.php", ANN, post="plain"))
        self.assertIn("<b>ann</b> plain", self.one(get("/latest.php")).body)
        self.serve(post("/post.php", BOB, post="<script>alert(1)</script>"))
        board, latest = self.serve(get("/"), get("/latest.php"))
        self.assertIn("&lt;script&gt;", board.body)
        self.assertEqual((latest.status, latest.body), (500, "Uncaught PolicyException\n"))
        self.assertIn("channel=http filter=NoForeignMarkup#", self.denials)

    def test_the_page_of_visitors_is_the_administrators(self):
        self.serve(post("/post.php", ANN, post="x"))
        of_ann, of_admin = self.serve(get("/admin.php", ANN), get("/admin.php", ADMIN))
        self.assertEqual(of_ann.status, 403)
        self.assertIn("<p>ann &lt;ann@foo.com&gt;, posts: 1</p>", of_admin.body)

    def test_a_session_ends(self):
        page = self.one(get("/logout.php", ANN))
        self.assertIn("Set-Cookie: sid=; Max-Age=0; Path=/", page.head)
        self.assertIn("Location: /login.php", self.one(get("/notes.php", ANN)).head)


if __name__ == "__main__":
    unittest.main()
