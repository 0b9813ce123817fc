"""Writes the crate for Rust and all that it uses as one package.

A registry has one crate of a name, and ours have names such as `tables`. So each becomes a module
below `parts`, and a path that begins with a crate's name begins with its module.
"""
import os
import re

from tokens import PATTERN, TRIVIA

FACE = 'plain/face'
PATH = re.compile(r'^(\w+) = \{.*?path = "([^"]+)"', re.M)
MACRO = re.compile(r'#\[macro_export\]\nmacro_rules! (\w+) ')
ALLOWED = '''#![allow(unsafe_code, dead_code, unused_imports, unused_macros, unused_parens)]
#![allow(unused_variables, missing_docs)]
'''
HEAD = '''[package]
name = "addrman"
version = "%s"
edition = "%s"
rust-version = "%s"
description = "The address manager of a Bitcoin node, of a program that was proved"
license = "MIT"
readme = "README.md"
keywords = ["bitcoin", "p2p", "peers"]
categories = ["cryptography::cryptocurrencies", "network-programming"]
include = ["/src", "/tests", "/examples", "/README.md", "/LICENSE"]

'''


def name_of(folder):
    """The module of a crate."""
    part, name = folder.split('/')
    return name if part == 'crates' else 'plain_' + name


def below(folder, files, found):
    """The crates that one uses, by the names that its sources have for them."""
    if folder in found:
        return
    names = found[folder] = {}
    for name, path in PATH.findall(files[folder + '/Cargo.toml']):
        to = os.path.normpath(os.path.join(folder, path))
        names[name] = name_of(to)
        below(to, files, found)


def with_paths(text, own, names):
    """The text of a file in a module. `own` is the path of its crate's module."""
    found, at, before = [], 0, ''
    while at < len(text):
        token = PATTERN.match(text, at)
        word, at = token.group(), token.end()
        if token.lastgroup == 'ident' and before not in ('::', '.'):
            if text.startswith('::', at) and (word in names or word == 'crate' and own):
                word = own if word == 'crate' else 'crate::parts::' + names[word]
                if before == '$':
                    word = own
        found.append(word)
        if token.lastgroup not in TRIVIA:
            before = token.group()
    return ''.join(found)


def with_macros(text):
    """The text, with its macros as names of the crate's own, and these names."""
    names = MACRO.findall(text)
    text = MACRO.sub(r'macro_rules! plain_\1 ', text)
    uses = ''.join('pub(crate) use plain_%s as %s;\n' % (name, name) for name in names)
    return text + ('\n' + uses if uses else ''), names


def part_files(folder, names, files):
    """The files of a crate as those of a module."""
    own, found, macros = name_of(folder), {}, []
    for path, text in files.items():
        if not path.startswith(folder + '/src/'):
            continue
        rel = path[len(folder + '/src/'):]
        text = with_paths(text, 'crate::parts::' + own, names)
        text, more = with_macros(text)
        macros += [(rel[:-len('.rs')], name) for name in more if rel != 'lib.rs']
        found['src/parts/%s/%s' % (own, 'mod.rs' if rel == 'lib.rs' else rel)] = text
    root = 'src/parts/%s/mod.rs' % own
    for module, name in macros:
        found[root] += 'pub(crate) use %s::%s;\n' % (module, name)
    return found


def section(text, name):
    """The lines of a section of a Cargo.toml, or none if it has no such section."""
    _, _, after = text.partition('\n[%s]\n' % name)
    return after.split('\n[', 1)[0].strip()


def registry_lines(toml, workspace, name):
    """The registry's crates of a section, as a package names them."""
    found = []
    for line in section(toml, name).splitlines():
        crate = re.match(r'([a-z0-9_]+)(?:\.workspace| = \{ workspace)(.*)', line)
        if crate:
            row = re.search(r'^%s = (.*)$' % crate.group(1), workspace, re.M).group(1)
            if 'optional' in crate.group(2):
                row = row[:-1].rstrip() + ', optional = true }'
            found.append('%s = %s' % (crate.group(1), row))
    return found


def package_toml(folders, files, workspace):
    """The Cargo.toml of the package."""
    def field(name):
        return re.search(r'^%s = "([^"]+)"' % name, workspace, re.M).group(1)

    face = files[FACE + '/Cargo.toml']
    tomls = [files[folder + '/Cargo.toml'] for folder in folders]
    lines = {line for toml in tomls for line in registry_lines(toml, workspace, 'dependencies')}
    optional = {line.split()[0] for line in lines if 'optional' in line}
    lines = sorted(line for line in lines if 'optional' in line or line.split()[0] not in optional)
    return ''.join([
        HEAD % (field('version'), field('edition'), field('rust-version')),
        '[features]\n%s\n\n' % '\n\n'.join(filter(None, (section(toml, 'features') for toml in tomls))),
        '[dependencies]\n%s\n\n' % '\n'.join(lines),
        '[dev-dependencies]\n%s\n' % '\n'.join(registry_lines(face, workspace, 'dev-dependencies'))])


def package_files(files, workspace):
    """The files of the package, of those of a workspace and the text of its Cargo.toml."""
    folders = {}
    below(FACE, files, folders)
    names = folders.pop(FACE)
    found = {'Cargo.toml': package_toml([FACE, *folders], files, workspace)}
    for folder, its_names in folders.items():
        found.update(part_files(folder, its_names, files))
    for path, text in files.items():
        rel = path[len(FACE) + 1:]
        if path.startswith(FACE + '/src/'):
            found[rel] = with_paths(text, '', names)
        elif path.startswith(FACE + '/') and rel.endswith(('.rs', '.md', '.txt')):
            found[rel] = text
    found['src/lib.rs'] += '\nmod parts;\n'
    modules = ''.join('pub(crate) mod %s;\n' % name for name in sorted(map(name_of, folders)))
    found['src/parts/mod.rs'] = '//! What the crate stands on.\n' + ALLOWED + '\n' + modules
    return found
