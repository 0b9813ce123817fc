"""Writes the crates of a checkout as a Cargo workspace."""
import json
import os
import re
import shutil
import subprocess
import tempfile
from collections import Counter

from check import check_format, check_shapes, check_tokens
from drops import drop_all
from laws import drop_laws, drop_removed, drop_unread
from ledger import drop_ledgers
from package import package_files
from rewrites import rewrite_all
from source import Source
from tokens import GHOST

REGISTRY = '/usr/share/cargo/registry'
HEAD = '''[package]
name = "%s"
version.workspace = true
edition.workspace = true
publish.workspace = true
rust-version.workspace = true
'''

# What the lints of rustc and clippy would say of the proved sources.
ALLOWED = '''// Some parameters, fields and functions are there only for contracts, and a bound that is gone
// leaves its parentheses.
#![allow(
    dead_code, unused_parens, unused_variables
)]
// A loop or a match is proved where a closure or a method would want a proof of its own, an index or
// a length is what a contract speaks of, a large variant lies in place, since a box may lack memory,
// slices are compared as references, and C passes pointers to functions that are not marked unsafe.
#![allow(
    clippy::collapsible_if, clippy::collapsible_match, clippy::explicit_auto_deref,
    clippy::explicit_counter_loop, clippy::if_same_then_else, clippy::large_enum_variant,
    clippy::len_without_is_empty, clippy::len_zero, clippy::manual_contains,
    clippy::manual_div_ceil, clippy::manual_filter, clippy::manual_find, clippy::manual_flatten,
    clippy::manual_is_multiple_of, clippy::manual_map, clippy::manual_ok_err,
    clippy::manual_range_contains, clippy::manual_unwrap_or, clippy::manual_unwrap_or_default,
    clippy::match_like_matches_macro, clippy::needless_borrow, clippy::needless_lifetimes,
    clippy::needless_match, clippy::needless_question_mark, clippy::needless_range_loop,
    clippy::not_unsafe_ptr_arg_deref, clippy::question_mark, clippy::redundant_closure,
    clippy::redundant_pattern_matching, clippy::should_implement_trait,
    clippy::too_many_arguments, clippy::type_complexity
)]
'''

FROM_PACKAGES = '''[source.crates-io]
replace-with = "packages"

[source.packages]
directory = "%s"

[net]
offline = true
''' % REGISTRY


def read_crates(path):
    """The crates of crates.txt: name, words after the name, dependencies."""
    crates = {}
    with open(path, encoding='utf-8') as lines:
        for line in lines:
            head, colon, deps = line.split('#')[0].partition(':')
            if colon:
                name, *words = head.split()
                crates[name] = (words, deps.split())
    return crates


def read_sources(root, crates):
    """The files of all crates."""
    sources = []
    for crate in crates:
        folder = os.path.join(root, 'crates', crate, 'src')
        for base, _, names in sorted(os.walk(folder)):
            for name in sorted(names):
                if name.endswith('.rt'):
                    path = os.path.join(base, name)
                    with open(path, encoding='utf-8') as file:
                        text = file.read()
                    sources.append(Source(crate, path, os.path.relpath(path, folder), text))
    return sources


def commit_of(root):
    """The commit of a checkout, and whether files that the script reads differ from it. Who builds a package names it."""
    def git(*words):
        done = subprocess.run(['git', '-C', root, *words], stdout=subprocess.PIPE,
                              stderr=subprocess.DEVNULL, text=True, check=False)
        return done.stdout.strip() if done.returncode == 0 else ''

    if os.environ.get('ADDRMAN_COMMIT'):
        return os.environ['ADDRMAN_COMMIT']
    commit = git('rev-parse', '--short=12', 'HEAD') if shutil.which('git') else ''
    if not commit:
        return 'an unknown commit'
    changed = git('status', '--porcelain', '--', 'crates', 'crates.txt', 'plain')
    return commit + (' and changes' if changed else '')


def strip(sources, commit):
    """Takes the proofs out of all files, and writes what Rust says in another way."""
    for source in sources:
        drop_all(source)
    removed = drop_laws(sources)
    drop_removed(sources, removed)
    drop_ledgers(sources)
    drop_unread(sources)
    for source in sources:
        rewrite_all(source, commit)
        check_shapes(source)


def versions_of(plain):
    """The crates of the registry that plain/Cargo.toml names."""
    with open(os.path.join(plain, 'Cargo.toml'), encoding='utf-8') as file:
        text = file.read()
    part = text.split('[workspace.dependencies]', 1)[1].split('\n[', 1)[0]
    return text, re.findall(r'^([a-z0-9_-]+) *=', part, re.M)


def has_packages(names):
    """Whether Debian's packages of all these crates are there."""
    if not os.path.isdir(REGISTRY):
        return False
    there = {entry.rsplit('-', 1)[0] for entry in os.listdir(REGISTRY)}
    return all(name in there for name in names)


def why_not(root):
    """Why the workspace cannot be built here without a network, or nothing if it can."""
    workspace, registry = versions_of(os.path.join(root, 'plain'))
    least = re.search(r'^rust-version = "([0-9.]+)"', workspace, re.M).group(1)
    if not shutil.which('cargo') or not shutil.which('rustc'):
        return 'cargo or rustc is not there'
    said = subprocess.run(['rustc', '--version'], stdout=subprocess.PIPE, text=True, check=False)
    found = re.match(r'rustc (\d+)\.(\d+)', said.stdout)
    if not found or [int(n) for n in found.groups()] < [int(n) for n in least.split('.')]:
        return 'rustc is older than %s' % least
    return '' if has_packages(registry) else 'the packages that README.md names are not there'


def cargo_toml(crate, words, deps, left, plain, registry):
    """The Cargo.toml of a crate."""
    lines = [HEAD % crate]
    if 'staticlib' in words:
        lines.append('[lib]\ncrate-type = ["staticlib", "cdylib", "rlib"]\n')
    lines.append('[dependencies]\nplain_std = { path = "../../plain/std" }')
    for dep in deps:
        if dep in left:
            lines.append('%s = { path = "../%s" }' % (dep, dep))
        elif os.path.isdir(os.path.join(plain, dep)):
            lines.append('%s = { path = "../../plain/%s", package = "plain_%s" }' % (dep, dep, dep))
        elif dep in registry:
            lines.append('%s = { workspace = true }' % dep)
    return '\n'.join(lines) + '\n'


def with_values(text, workspace):
    """A manifest with the values that it takes from the workspace, which cargo 1.63 does not look up."""
    def line(found):
        row = re.search(r'^%s = (.*)$' % found.group(1), workspace, re.M).group(1)
        more = (found.group(2) or '').strip()
        return '%s = %s' % (found.group(1), row[:-1].rstrip() + more + ' }' if more else row)
    return re.sub(r'^([a-z0-9_-]+)(?:\.workspace = true| = \{ workspace = true(.*)\})$', line, text, flags=re.M)


def whole(files):
    """The files of the workspace, each manifest with its values."""
    workspace = files['Cargo.toml']
    found = {name: with_values(text, workspace) if name.endswith('/Cargo.toml') else text
             for name, text in files.items()}
    found['Cargo.toml'] = re.sub(r'\[workspace\.\w+\]\n.*?\n\n(?=\[)', '', workspace, flags=re.S)
    return found


def write_files(out, files):
    """Writes files below a folder, and removes what else is below crates/, plain/ and src/.

    A file that has its text already is left alone, since cargo builds what is newer.
    """
    for part in ('crates', 'plain', 'src'):
        for base, _, names in os.walk(os.path.join(out, part), topdown=False):
            for name in names:
                path = os.path.join(base, name)
                if os.path.relpath(path, out) not in files:
                    os.remove(path)
            if not os.listdir(base):
                os.rmdir(base)
    for rel, text in files.items():
        path = os.path.join(out, rel)
        os.makedirs(os.path.dirname(path), exist_ok=True)
        if os.path.exists(path):
            with open(path, encoding='utf-8') as file:
                if file.read() == text:
                    continue
        with open(path, 'w', encoding='utf-8') as file:
            file.write(text)


def laid_out(files):
    """The files as rustfmt lays them out, where it is there. Checks that it did no more."""
    if not shutil.which('rustfmt'):
        return files
    with tempfile.TemporaryDirectory() as folder:
        write_files(folder, files)
        names = [name for name in files if name.endswith('.rs')]
        for start in range(0, len(names), 100):
            subprocess.run(['rustfmt', '--edition', '2021', *names[start:start + 100]],
                           cwd=folder, check=True)
        found = dict(files)
        for name in names:
            with open(os.path.join(folder, name), encoding='utf-8') as file:
                found[name] = file.read()
            check_format(name, files[name], found[name])
        return found


def plain_files(plain):
    """The files of plain/ that are Rust, or are for cargo or for a test."""
    found = {}
    for base, _, names in os.walk(plain):
        for name in names:
            if name.endswith(('.rs', '.txt')) or name in ('Cargo.toml', 'README.md'):
                path = os.path.join(base, name)
                with open(path, encoding='utf-8') as file:
                    found[os.path.join('plain', os.path.relpath(path, plain))] = file.read()
    del found[os.path.join('plain', 'Cargo.toml')]
    return found


def counts_of(sources):
    """How often each rule was used, and in how many crates."""
    rules = {}
    for source in sources:
        found = Counter(source.rules)
        found.update(token.gone for token in source.tokens if token.kind == GHOST)
        for rule, times in found.items():
            total, crates = rules.setdefault(rule, (0, set()))
            rules[rule] = (total + times, crates | {source.crate})
    return {rule: (times, len(crates)) for rule, (times, crates) in rules.items()}


def read_workspace(root):
    """The files of the workspace, and how often each rule was used."""
    plain = os.path.join(root, 'plain')
    crates = read_crates(os.path.join(root, 'crates.txt'))
    sources = read_sources(root, crates)
    everything = list(sources)
    strip(sources, commit_of(root))
    workspace, registry = versions_of(plain)
    left = {source.crate for source in sources if source.rel in ('lib.rt', 'main.rt')}
    files = {}
    for source in sources:
        if source.rel in ('lib.rt', 'main.rt'):
            source.put_on_top(ALLOWED, 'what lints allow')
        text = source.write()
        check_tokens(source, source.path, text)
        files['crates/%s/src/%s.rs' % (source.crate, source.rel[:-len('.rt')])] = text
    files = laid_out(files)
    for crate in left:
        words, deps = crates[crate]
        files['crates/%s/Cargo.toml' % crate] = cargo_toml(crate, words, deps, left, plain, registry)
    files.update(plain_files(plain))
    files['Cargo.toml'] = re.sub(r'^members = .*$', 'members = ["crates/*", "plain/*"]', workspace,
                                 flags=re.M)
    return files, counts_of(everything)


def without_paths(out):
    """Cargo's settings by which no path of this machine stands in what is built."""
    home = os.environ.get('CARGO_HOME') or os.path.expanduser('~/.cargo')
    names = {os.path.abspath(out): 'addrman', REGISTRY: 'registry', os.path.join(home, 'registry', 'src'): 'registry'}
    flags = ['--remap-path-prefix=%s=/usr/src/%s' % pair for pair in names.items()]
    return '[build]\nrustflags = %s\n\n' % json.dumps(flags)


def write_out(root, out, files):
    """Writes files, and where cargo finds the registry's crates."""
    found = has_packages(versions_of(os.path.join(root, 'plain'))[1])
    files['.cargo/config.toml'] = without_paths(out) + (FROM_PACKAGES if found else '')
    write_files(out, files)


def write_workspace(root, out):
    """Writes the workspace. Returns how often each rule was used."""
    files, counts = read_workspace(root)
    write_out(root, out, whole(files))
    return counts


def write_package(root, out):
    """Writes the crate for Rust as one package. Returns how often each rule was used."""
    files, counts = read_workspace(root)
    found = package_files(files, files['Cargo.toml'])
    with open(os.path.join(root, 'LICENSE'), encoding='utf-8') as file:
        found['LICENSE'] = file.read()
    write_out(root, out, laid_out(found))
    return counts
