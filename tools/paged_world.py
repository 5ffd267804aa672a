#!/usr/bin/env python3
"""Writes a scratch crate with the definitions of the normal world over a memory of pages.

  paged_world.py --out crates/paged_world

A lemma by computation holds the whole state as a value, and a list of 1,048,576 bytes is too long for
that. The scratch crate has the definitions of virtqueue, and those of kernel_types that stand on the
memory, word by word, with their imports led to one another; only what reads and
writes memory is written anew, for a memory that has only the pages of 64 bytes that were written, each
as one number. Addresses, sizes and layout are the real ones, and the crate's own lemmas compare pages with
lists on some hundred reads and writes. crates.txt of the scratch clone
lists it as `paged_world: byteorder kernel_values kernel_types virtqueue tipc_proto`, and
`try_cases.py --world paged_world` tries scenes with clients on it."""
import argparse, os, re

HERE = os.path.dirname(os.path.dirname(os.path.abspath(__file__)))

# The files that are copied, from the crates that they are of.
COPIED = {
    "virtqueue": ["Layout", "Bytes", "Chains"],
    "kernel_types": ["GuestMemory", "Drains", "Clients", "Device", "Opening", "Step", "History", "Facts", "Turns", "Serial"],
}

# Memory by pages.
PAGES = """-- Memory as the pages of 64 bytes that were written: each is one number, the lowest byte first, behind the page's own.
use Rattle.std.specs.Prelude.{ℕ, ◌+◌, ◌-◌, ◌*◌, ◌/◌, ◌%◌, ◌^◌, Bool, not, ◌==◌, List, [], ◌∷◌, length, take, drop, min, map, Option, Some, None}
use Rattle.std.specs.List.{filter, find, fold, flat_map, range_with_len}
use Rattle.byteorder.specs.Endian.{little_bytes}

abbrev pub is_page : ℕ → ℕ → Bool
is_page k page = page % 65536 == k

abbrev pub content : Option ℕ → ℕ
content None = 0
content (Some page) = page / 65536

abbrev pub content_of : List ℕ → ℕ → ℕ
content_of memory k = content (find (is_page k) memory)

abbrev pub with_content : ℕ → ℕ → List ℕ → List ℕ
with_content k number memory = (number * 65536 + k) ∷ filter (λ page. not (is_page k page)) memory

-- the number in two pages
abbrev pub content_from : List ℕ → ℕ → ℕ
content_from memory k = content_of memory k + 256 ^ 64 * content_of memory (k + 1)

abbrev pub number_in : ℕ → ℕ → List ℕ → ℕ
number_in n at memory = content_from memory (at / 64) / 256 ^ (at % 64) % 256 ^ n

abbrev pub number_of_bytes : List ℕ → ℕ
number_of_bytes [] = 0
number_of_bytes (byte ∷ bytes) = byte + 256 * number_of_bytes bytes

abbrev pub with_two : ℕ → ℕ → List ℕ → List ℕ
with_two k number memory = with_content k (number % 256 ^ 64) (with_content (k + 1) (number / 256 ^ 64) memory)

abbrev pub changed_number : ℕ → ℕ → ℕ → ℕ → ℕ
changed_number old scale size value = old - (old / scale % size) * scale + value * scale

abbrev pub put_piece : ℕ → List ℕ → List ℕ → List ℕ
put_piece at bytes memory = with_two (at / 64)
    (changed_number (content_from memory (at / 64)) (256 ^ (at % 64)) (256 ^ length bytes) (number_of_bytes bytes)) memory

-- pieces of at most 64 bytes
abbrev pub pieces : ℕ → List (ℕ × ℕ)
pieces len = map (λ k. (k * 64, min 64 (len - k * 64))) (range_with_len 0 ((len + 63) / 64))

unfoldable pub put_bytes : ℕ → List ℕ → List ℕ → List ℕ
put_bytes at bytes memory =
    fold (λ m piece. put_piece (at + piece.0) (take piece.1 (drop piece.0 bytes)) m) memory (pieces (length bytes))

unfoldable pub get_bytes : ℕ → ℕ → List ℕ → List ℕ
get_bytes at len memory = flat_map (λ piece. little_bytes piece.1 (number_in piece.1 (at + piece.0) memory)) (pieces len)
"""

AGREE = """-- Pages and lists of bytes give the same numbers and bytes, on some hundred reads and writes within and over pages.
use Rattle.std.specs.Prelude.{◌≡◌, ℕ, Bool, true, false, ◌+◌, List, [], ◌∷◌, ◌++◌, ◌==◌, ◌&&◌, length, take, drop, map, refl, bytes_eq}
use Rattle.std.specs.List.{range_with_len, list_all}
use Rattle.virtqueue.specs.declared.parts.Part.{Part}
use Rattle.virtqueue.specs.Layout.{written_at, number_at}
use Rattle.virtqueue.specs.Bytes.{addresses, stored, bytes_at}
use Rattle.paged_world.specs.Pages.{put_bytes, get_bytes, number_in}
use Rattle.paged_world.specs.Bytes.{stored as paged_stored, bytes_at as paged_bytes_at}
use Rattle.paged_world.specs.OnLiterals.{pages_on_literals}

abbrev xs : List ℕ
xs = range_with_len 1 220

abbrev ys : List ℕ
ys = range_with_len 100 130

abbrev paged : List ℕ
paged = put_bytes 0 xs []

abbrev parts : List Part
parts = (record { addr = 10; len = 70 }) ∷ (record { addr = 50; len = 0 }) ∷ (record { addr = 60; len = 66 }) ∷ (record { addr = 5; len = 20 }) ∷ []

whole : get_bytes 0 220 paged ≡ xs
unfolding pages_on_literals
whole = refl

numbers : list_all (λ k. number_at 4 k xs == number_in 4 k paged && number_at 8 k xs == number_in 8 k paged) (range_with_len 0 210) ≡ true
unfolding pages_on_literals
numbers = refl

writes : list_all (λ k. bytes_eq (written_at k ys xs) (get_bytes 0 220 (put_bytes k ys paged))) (range_with_len 0 90) ≡ true
unfolding pages_on_literals
writes = refl

reads : list_all (λ k. bytes_eq (take 130 (drop k xs)) (get_bytes k 130 paged)) (range_with_len 0 90) ≡ true
unfolding pages_on_literals
reads = refl

stores : list_all (λ k. bytes_eq (stored parts (take k ys) xs) (get_bytes 0 220 (paged_stored parts (take k ys) paged))) (0 ∷ 1 ∷ 69 ∷ 70 ∷ 71 ∷ 100 ∷ 130 ∷ []) ≡ true
unfolding pages_on_literals
stores = refl

loads : bytes_eq (bytes_at parts xs) (paged_bytes_at parts paged) ≡ true
unfolding pages_on_literals
loads = refl
"""

# Definitions that are written anew: the file, the old lines, the new ones, and what they import.
PAGED = [
    ("Layout", "number_at n at memory = little_number n (drop at memory)", "number_at n at memory = number_in n at memory", "number_in"),
    ("Layout", "written_at at bytes memory = take at memory ++ (bytes ++ drop (at + length bytes) memory)",
     "written_at at bytes memory = put_bytes at bytes memory", "put_bytes"),
    ("Bytes", "bytes_at parts memory = map (λ at. slice_index memory at) (addresses parts)",
     "bytes_at parts memory = flat_map (λ part. get_bytes part.addr part.len memory) parts", "get_bytes"),
    ("Bytes", "stored parts bytes memory = fold put_byte memory (zip (addresses parts) bytes)",
     "stored parts bytes memory = stored_in parts bytes memory", "put_bytes"),
    ("GuestMemory", "blank_memory = replicate memory_size 0", "blank_memory = []", None),
    ("GuestMemory", "read_at at len memory = take len (drop at memory)", "read_at at len memory = get_bytes at len memory", "get_bytes"),
]
STORED_IN = """abbrev pub stored_in : List Part → List ℕ → List ℕ → List ℕ
stored_in [] bytes memory = memory
stored_in (part ∷ parts) bytes memory = stored_in parts (drop part.len bytes) (put_bytes part.addr (take part.len bytes) memory)

"""

# The words that a computation opens beside those of the copies.
OPENED = {"kernel_types.specs.OnLiterals": ["kernel_on_literals", "world_on_literals"]}

USE = re.compile(r"^use Rattle\.(\w+)\.specs\.(\w+)\.\{(.*)\}$", re.M)
DEFINED = re.compile(r"^(?:abbrev|unfoldable) pub (\w+)|^pub (?:record|data) (\w+)|^  (\w+) : [^\n]*→ \w+$|^  (\w+) : \w+$", re.M)


def read(crate, name):
    return open(os.path.join(HERE, "crates", crate, "specs", name + ".antt"), encoding="utf-8").read()


def names_in(text):
    return {name for found in DEFINED.findall(text) for name in found if name}


def texts():
    """The copied files by name, with what is written anew."""
    copies = {name: read(crate, name) for crate, names in COPIED.items() for name in names}
    for name, old, new, word in PAGED:
        if copies[name].count(old) != 1:
            raise SystemExit("%s has no line `%s`" % (name, old))
        copies[name] = copies[name].replace(old, new)
        if word:
            head = "use Rattle.paged_world.specs.Pages.{%s}\n" % word
            copies[name] = copies[name] if head in copies[name] else copies[name].replace("\nuse ", "\n" + head + "use ", 1)
    at = copies["Bytes"].index("-- the memory with the first byte put at the first address")
    copies["Bytes"] = copies["Bytes"][:at] + STORED_IN + copies["Bytes"][at:]
    copies["Bytes"] = copies["Bytes"].replace("List, map,", "List, [], ◌∷◌, take, drop, map,", 1)
    return copies


def led(copies):
    """A function of a text: each import of a copied word leads to the copy."""
    homes = {name: names_in(text) for name, text in copies.items()}

    def lead(found):
        crate, module, words = found.group(1), found.group(2), [w.strip() for w in found.group(3).split(",")]
        if module not in homes:
            return found.group(0)
        mine = [w for w in words if w in homes[module]]
        rest = [w for w in words if w not in homes[module]]
        lines = ["use Rattle.paged_world.specs.%s.{%s}" % (module, ", ".join(mine))] if mine else []
        lines += ["use Rattle.%s.specs.%s.{%s}" % (crate, module, ", ".join(rest))] if rest else []
        return "\n".join(lines)

    return lambda text: USE.sub(lead, text)


def on_literals(copies):
    opened = [("paged_world.specs.%s" % name, re.findall(r"^unfoldable pub (\w+)", text, re.M)) for name, text in copies.items()]
    opened += list(OPENED.items())
    uses = "".join("use Rattle.%s.{%s}\n" % (module, ", ".join(words)) for module, words in opened if words)
    words = " ".join(word for _, words in opened for word in words)
    return "use Rattle.std.specs.Prelude.{⊤}\n" + uses + "\nunfoldable pub pages_on_literals : ⊤\nunfolding %s\npages_on_literals = tt\n" % words


def write(path, text):
    os.makedirs(os.path.dirname(path), exist_ok=True)
    with open(path, "w", encoding="utf-8") as out:
        out.write(text)


def main():
    parser = argparse.ArgumentParser(description=__doc__, formatter_class=argparse.RawDescriptionHelpFormatter)
    parser.add_argument("--out", required=True, help="the folder of the scratch crate")
    folder = parser.parse_args().out
    copies = texts()
    change = led(copies)
    for name, text in copies.items():
        write(os.path.join(folder, "specs", name + ".antt"), change(text))
    copies["Pages"] = PAGES
    write(os.path.join(folder, "specs/Pages.antt"), PAGES)
    write(os.path.join(folder, "specs/OnLiterals.antt"), on_literals(copies))
    names = sorted(copies) + ["OnLiterals"]
    write(os.path.join(folder, "specs/Lib.antt"), "".join("pub mod %s\n" % name for name in names))
    write(os.path.join(folder, "proofs/PagesAgree.antt"), AGREE)
    write(os.path.join(folder, "proofs/Lib.antt"), "mod PagesAgree\n")
    write(os.path.join(folder, "src/lib.rt"), "//! The definitions of the whole kernel over pages.\n#![tactic(auto)]\n\n/// The definitions are checked with the crate.\npub fn paged() {}\n")


if __name__ == "__main__":
    main()
