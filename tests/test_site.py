"""The documents as pages of a site: links between pages, to files and to headings, and what an example's page offers."""
import os
import tempfile
import unittest

import sdd_path  # noqa: F401
import site_documents
from sdd.model.files import BadInput, text_of
from sdd.programs import ROOT

if site_documents.MarkdownIt:
    import make_site


class Names(unittest.TestCase):
    def test_pages(self):
        self.assertEqual([site_documents.page_of(x) for x in ("README.md", "docs/MAP.md", "examples/bank/README.md")],
                         ["index.html", "docs/MAP.html", "examples/bank/index.html"])
        self.assertEqual(site_documents.relative("index.html", "examples/bank/index.html"), "../../index.html")

    def test_anchors(self):
        taken = {}
        self.assertEqual([site_documents.anchor_of(x, taken) for x in ("Over real files, and streams", "Words", "Words")],
                         ["over-real-files-and-streams", "words", "words-1"])

    def test_library_is_asked_for(self):
        library, site_documents.MarkdownIt = site_documents.MarkdownIt, None
        try:
            self.assertRaisesRegex(BadInput, "pip install markdown-it-py", site_documents.Document, "README.md", {})
        finally:
            site_documents.MarkdownIt = library


@unittest.skipUnless(site_documents.MarkdownIt, "markdown-it-py isn't installed")
class Site(unittest.TestCase):
    def setUp(self):
        self.room = tempfile.TemporaryDirectory()
        self.addCleanup(self.room.cleanup)
        self.site = make_site.Site(self.room.name)

    def page(self, name):
        return text_of(os.path.join(self.room.name, name))

    def test_documents(self):
        make_site.write_documents(self.site)
        make_site.check_links(self.site)
        front = self.page("index.html")
        for part in ('href="docs/TUTORIAL.html"', 'src="examples/bridge/picture.svg"', 'href="statement/IsReportOn.html"', 'href="./style.css"'):
            self.assertIn(part, front)
        self.assertNotIn(".md\"", front)
        bank = self.page("examples/bank/index.html")
        for part in ('href="run.html"', 'href="../../web/sdd1.html#example=bank"', 'href="workload"', 'href="../../style.css"'):
            self.assertIn(part, bank)
        self.assertIn('<a href="bank/index.html"><code>bank</code></a>', self.page("examples/index.html"))
        self.assertTrue(os.path.isfile(os.path.join(self.room.name, "examples", "bank", "report")))

    def test_a_heading_that_is_not_there(self):
        make_site.write_documents(self.site)
        self.site.documents[0].leads.append(("index.html", "no-such-heading"))
        self.assertRaisesRegex(BadInput, "index.html#no-such-heading leads nowhere", make_site.check_links, self.site)

    def test_a_broken_example(self):
        programs = make_site.programs_of(os.path.join(ROOT, "examples", "broken", "all-p1"), None)
        self.assertEqual(programs.inside[-3:], ["--break", "all-p1", "inside"])


if __name__ == "__main__":
    unittest.main()
