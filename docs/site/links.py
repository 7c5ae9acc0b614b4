"""What a link of a page leads to on the site: from the index of the reference to its pages, from code to pages. One that leads out of the
site is left as words."""
import posixpath
import re


def on_page_markdown(markdown, page, files, **_):
    folder = posixpath.dirname(page.file.src_path)

    def link(found):
        words, path, part = found.groups()
        if path.endswith("reference.txt"):
            return f"{words}({path[:-4]}/{part[1:] or 'README'}.md)"
        is_here = ":" in path or not path or files.get_file_from_path(posixpath.normpath(posixpath.join(folder, path)))
        return found[0] if is_here else words[1:-1]

    return re.sub(r"(?<!!)(\[[^\]\n]*\])\(([^)#\s]*)(#[^)\s]*|)\)", link, markdown)


def on_page_content(html, **_):
    return re.sub(r'href="([\w-]+)\.md(?=["#])', r'href="\1.html', html)
