"""Makes the page in one file, and the files of web/ that are made of others; keeps them in dist/ beside the module."""
import base64
import hashlib
import json
import os
import re

import prebuilt
import sample_font
import web_module
from prebuilt import TOP, Fault

WEB, SAMPLE = os.path.join(TOP, "web"), os.path.join(TOP, "examples/sample.ttf")
MODULE, PAGE = web_module.LIBRARY, "mkstrike.html"
SHARED = ("mkstrike.js", "tables.js", "outputs.js", "looks.js")  # what the page and the worker both need
ALONE = ("woff.js", "sfnt.js", "text.js", "controls.js", "drawing.js", "sheet.js", "page.js")  # what the page needs beside it


def kinds():
    """Files of another kind, as docs/REFUSALS.md has them, without the options of the command: first bytes, what the file does,
    what to do."""
    return [(begins.hex(), seems, re.sub("; --.*", "", todo)) for begins, _, seems, todo in prebuilt.kinds_of_files()
            if begins is not None]


def tables():
    """web/tables.js: what the page takes from other files."""
    rows = ["  %s," % json.dumps(dict(zip(("begins", "seems", "todo"), it)), ensure_ascii=False) for it in kinds()]
    made = ["// Tables of other files. Made by tools/make_dist --page.",
            "// Files of another kind, by their first bytes, as docs/REFUSALS.md has them.",
            "export const KINDS = [", *rows, "];"]
    for name, table, what in (("SETS", "SETS", "Sets of characters by name, as `mkstrike make --set` takes them"),
                              ("NAMES", "OTHERS", "Other names of sets")):
        made += ["", "// %s (crates/fx_words)." % what, "export const %s = {" % name]
        made += ["  %s: %s," % tuple(map(json.dumps, it)) for it in prebuilt.sets(table)] + ["};"]
    return "".join("%s\n" % it for it in made).encode()


def source(name):
    """A source of the page, as text for one file: without the words that tie modules together."""
    text = prebuilt.read(os.path.join(WEB, name)).decode()
    text = re.sub(r"^import [^;]*;\n", "", text, flags=re.M)
    return re.sub(r"^export (?=const |function |async |class )", "", text, flags=re.M)


def policy(scripts):
    """What the page in one file may load: nothing but its own parts. So it can send nothing either."""
    hashes = " ".join("'sha256-%s'" % base64.b64encode(hashlib.sha256(it.encode()).digest()).decode() for it in scripts)
    return ("default-src 'none'; script-src %s 'wasm-unsafe-eval'; worker-src blob:; style-src 'unsafe-inline'; img-src data:; "
            "base-uri 'none'; "
            "form-action 'none'" % hashes)


def once(text, old, new):
    """The text with one part replaced, which must be there once."""
    if text.count(old) != 1:
        raise Fault("web/index.html has %d times: %s" % (text.count(old), old))
    return text.replace(old, new)


def page_of(module):
    """The page in one file, with the module in it. It depends on web/, VERSION and the module alone."""
    text = prebuilt.read(os.path.join(WEB, "index.html")).decode()
    shared, page, worker = "".join(map(source, SHARED)), "".join(map(source, ALONE)), source("worker.js")
    for it in (shared, page, worker):
        if "</script" in it:
            raise Fault("a script of web/ has the end of a script in it")
    data = [("module", module), ("sample", prebuilt.read(SAMPLE))]
    parts = ['<script id="shared">%s</script>' % shared, '<script type="text/plain" id="worker">%s</script>' % worker]
    parts += ['<script type="text/plain" id="%s">%s</script>' % (name, base64.b64encode(it).decode()) for name, it in data]
    parts.append('<script type="module">%s</script>' % page)
    text = once(text, '<script type="module" src="page.js"></script>', "\n".join(parts))
    release = prebuilt.read(os.path.join(TOP, "VERSION")).decode().strip()
    about = "mkstrike %s; SHA-256 of the module: %s" % (release, prebuilt.sha256(module))
    text = once(text, '<p id="versions" class="hint"></p>', '<p id="versions" class="hint">%s</p>' % about)
    style = prebuilt.read(os.path.join(WEB, "page.css")).decode()
    text = once(text, '<link rel="stylesheet" href="page.css">', "<style>\n%s</style>" % style)
    return re.sub(r'(http-equiv="Content-Security-Policy" content=")[^"]*', lambda it: it.group(1) + policy([shared, page]),
                  text).encode()


# ---- what is kept

def made_of_others():
    """The table of the page and its sample font, which are made of other files: pairs of a path and its bytes."""
    return [(os.path.join(WEB, "tables.js"), tables()), (SAMPLE, sample_font.sample())]


def put_page(module, say):
    """Writes the files that are made for the page, and dist/mkstrike.html."""
    for path, data in made_of_others() + [(os.path.join(prebuilt.DIST, PAGE), None)]:
        data = page_of(module) if data is None else data
        if not os.path.exists(path) or prebuilt.read(path) != data:
            prebuilt.write(path, data)
            say("%s, %d bytes" % (prebuilt.shown(path), len(data)))


def put(modules, say):
    """Puts the modules, by their names, and the page into dist/, and the modules' lines into the manifest."""
    hashes = [prebuilt.sha256(modules[it]) for it in web_module.MODULES]
    manifest = prebuilt.Manifest(*prebuilt.read_manifest()[:6], web_module.hash_of_sources(), *hashes)
    for name, data in modules.items():
        prebuilt.write(os.path.join(prebuilt.DIST, name), data)
        say("dist/%s, %d bytes, %s" % (name, len(data), prebuilt.sha256(data)))
    prebuilt.write(os.path.join(prebuilt.DIST, "manifest"), prebuilt.manifest_of(manifest))
    put_page(modules[MODULE], say)


def faults(manifest):
    """What is wrong with the files that are made, in lines, if dist/ has a module."""
    found = ["%s is not what tools/make_dist --page writes" % prebuilt.shown(path) for path, data in made_of_others()
             if prebuilt.read(path) != data]
    if manifest.module_sources != web_module.hash_of_sources():
        found.append("the modules of dist/ are of other sources: tools/make_dist --web makes them anew")
    if prebuilt.read(os.path.join(prebuilt.DIST, PAGE)) != page_of(prebuilt.read(os.path.join(prebuilt.DIST, MODULE))):
        found.append("dist/%s is not the page of web/ with that module: tools/make_dist --page makes it anew" % PAGE)
    return found
