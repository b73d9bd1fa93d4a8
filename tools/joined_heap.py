#!/usr/bin/env python3
"""Builds a heap by the calls of the heap's crates, collects and promotes it, and compares it with plain objects.

usage: tools/joined_heap.py [--seeds FIRST LAST] [--refuse FROM TO]

A program joins the spaces, the mod-union tables, `evacuate` and `zygote_compact` as a process would: objects are made in
the image, in regions and in slots, stored to, collected, promoted and forked. It prints where every object stands, its
words, and the mapped pages. The same steps are done here with plain objects, by the rules of docs/definitions.md, and each
number is compared: every word, every address but for which region of the window is which, every mapped page, which pages
still have the frame that a fork shared, the counts and the bounds on reads.

THE PROGRAM IS NOT PROVED: what the calls require of memory is not proved of the heap that it makes. `rt try` runs it, with
a test at each sum, index and access. Each seed makes other steps.

With --refuse the allocation of each number from FROM to TO is refused in turn. The step that meets it must leave all as it
was, and be done when it is tried again.
"""

import argparse
import os
import random
import re
import subprocess
import sys
import tempfile

sys.path.insert(0, os.path.join(os.path.dirname(os.path.dirname(os.path.abspath(__file__))), "bench"))
import program

MAIN = r"""//! Does the steps that the words name to a heap: for comparing it with plain objects.
#![tactic(auto)]

mod heap;
mod shows;
mod steps;

use crate::heap::Heap;
use std::process::ExitCode;
use std::{env, io};

fn run(rt: &HostRuntime) -> io::Result<()> {
    let words = env::args(rt)?.skip(1).collect::<Vec<String>>(rt.alloc())?;
    let mut heap = Heap::new(rt.alloc())?;
    let mut next = 0;
    while next < words.len() {
        next = steps::step(rt, &mut heap, &words, next)?;
    }
    Ok(())
}

fn main(rt: HostRuntime) -> ExitCode {
    match run(&rt) {
        Ok(()) => ExitCode::from(0),
        Err(_) => ExitCode::from(1),
    }
}
"""

HEAP = r"""//! What a process keeps, over these crates.

use card_table::Cards;
use class_layout::{Classes, FieldDecl, Kind, Name};
use cow_pages::{Addr, Frames, PageNo, TableNo};
use evacuate::collect;
use image_space::ImageSpace;
use large_objects::Larges;
use mod_union::ModUnion;
use model_numbers::{
    IMAGE_BASE, IMAGE_LENGTH, LARGE_BASE, LARGE_SLOT_BYTES, ZYGOTE_BASE, ZYGOTE_LENGTH,
};
use object_collection::Kept;
use object_view::{Header, Shape, Slot, read_header, read_shape, size_of};
use raw_objects::{add_object, store_value};
use region_space::Regions;
use std::alloc::{AllocError, Global};
use zygote_compact::promote;
use zygote_space::ZygoteSpace;

/// The regions that the process may use.
pub const BUDGET: u32 = 8;

/// A process: its pages, classes, roots and spaces, the cards and mod-union tables of its immune spaces, and the table of
/// a child, which shares its pages since the last fork.
#[derive(Drop)]
pub struct Heap {
    pub frames: Frames,
    pub t: TableNo,
    pub child: Option<TableNo>,
    pub classes: Classes,
    pub roots: Vec<Addr>,
    pub image: ImageSpace,
    pub zygote: ZygoteSpace,
    pub regions: Regions,
    pub larges: Larges,
    pub cards: [Cards; 2],
    pub outward: [ModUnion; 2],
    /// Where each object stands, by its number; 0 for those that are gone.
    pub ats: Vec<Addr>,
}

fn field(name: &[u8], kind: Kind) -> FieldDecl {
    FieldDecl {
        name: Name::of(name).unwrap(),
        kind,
    }
}

/// Adds the classes 2, of 24 bytes, and 3, of 32. Each has two references and a long.
fn add_classes(classes: &mut Classes) -> Result<(), AllocError> {
    let first = [
        field(b"a", Kind::Ref),
        field(b"b", Kind::Ref),
        field(b"n", Kind::Long),
    ];
    let more = [field(b"m", Kind::Long)];
    let object = Name::of(b"java.lang.Object").unwrap();
    let small = Name::of(b"Small").unwrap();
    let Ok(_) = classes.define(small, &object, &first) else {
        return Err(AllocError);
    };
    let Ok(_) = classes.define(Name::of(b"Big").unwrap(), &small, &more) else {
        return Err(AllocError);
    };
    Ok(())
}

impl Heap {
    pub fn new(alloc: Global) -> Result<Heap, AllocError> {
        let mut classes = Classes::new(alloc)?;
        add_classes(&mut classes)?;
        let mut frames = Frames::new(alloc);
        let t = frames.new_table()?;
        let mut image_cards = Cards::new(alloc, Addr(IMAGE_BASE));
        image_cards.grow(IMAGE_LENGTH)?;
        let mut zygote_cards = Cards::new(alloc, Addr(ZYGOTE_BASE));
        zygote_cards.grow(ZYGOTE_LENGTH)?;
        let mut ats = Vec::new(alloc);
        ats.push(Addr(0))?;
        Ok(Heap {
            frames,
            t,
            child: None,
            classes,
            roots: Vec::new(alloc),
            image: ImageSpace::new(alloc)?,
            zygote: ZygoteSpace::new(alloc)?,
            regions: Regions::new(alloc, BUDGET)?,
            larges: Larges::new(alloc)?,
            cards: [image_cards, zygote_cards],
            outward: [ModUnion::new(alloc), ModUnion::new(alloc)],
            ats,
        })
    }

    fn add(&mut self, at: Addr, shape: Shape) -> Result<(), AllocError> {
        let number = self.ats.len() as u32;
        self.ats.push(at)?;
        add_object(&mut self.frames, &self.classes, self.t, at, shape, number)
    }

    fn size(&self, shape: Shape) -> u32 {
        size_of(&self.classes, shape) as u32
    }

    pub fn add_image(&mut self, shape: Shape) -> Result<(), AllocError> {
        let size = self.size(shape);
        let Ok(at) = self.image.place(&mut self.frames, self.t, size) else {
            return Err(AllocError);
        };
        self.add(at, shape)
    }

    pub fn add_young(&mut self, shape: Shape) -> Result<(), AllocError> {
        let size = self.size(shape);
        let at = self.regions.place(&mut self.frames, self.t, size)?;
        self.add(at, shape)
    }

    pub fn add_large(&mut self, count: u32) -> Result<(), AllocError> {
        let number = self.ats.len() as u32;
        let at = self.larges.place(&mut self.frames, self.t, number, 12 + count)?;
        self.add(at, Shape::Array { kind: Kind::Byte, count })
    }

    /// Puts a value into the object of a number. A reference in an immune object dirties its card.
    pub fn put(&mut self, number: u32, kind: Kind, offset: u32, value: i64) -> Result<(), AllocError> {
        let at = self.ats[number as usize];
        store_value(&mut self.frames, self.t, at, kind, offset, value)?;
        if kind == Kind::Ref {
            let slot = Addr(at.0 + offset);
            if at.0 < IMAGE_BASE + IMAGE_LENGTH {
                self.cards[0].dirty(slot);
            } else if at.0 < ZYGOTE_BASE + ZYGOTE_LENGTH {
                self.cards[1].dirty(slot);
            }
        }
        Ok(())
    }

    /// The slots that lead out of the immune spaces, by rising address.
    pub fn slots(&mut self) -> Result<Vec<Slot>, AllocError> {
        let (frames, t, classes, larges) = (&mut self.frames, self.t, &self.classes, &self.larges);
        let mut slots = self.outward[0].update(frames, t, classes, &mut self.cards[0], self.image.starts(), larges)?;
        let more = self.outward[1].update(frames, t, classes, &mut self.cards[1], self.zygote.starts(), larges)?;
        slots.extend_from_slice(&more)?;
        Ok(slots)
    }

    pub fn collect(&mut self, alloc: Global, slots: &[Slot]) -> Result<Kept, AllocError> {
        let (frames, roots) = (&mut self.frames, &mut self.roots);
        collect(alloc, frames, self.t, &self.classes, roots, slots, &mut self.regions, &mut self.larges)
    }

    pub fn promote(&mut self, alloc: Global, slots: &[Slot]) -> Result<u32, AllocError> {
        let (frames, roots, zygote) = (&mut self.frames, &mut self.roots, &mut self.zygote);
        let done = promote(alloc, frames, self.t, &self.classes, roots, slots, &mut self.regions, &mut self.larges, zygote);
        match done {
            Ok(moved) => Ok(moved),
            Err(_) => Err(AllocError),
        }
    }

    /// A child shares all pages, the child before is gone, and no card is dirty or recorded.
    pub fn fork(&mut self) -> Result<(), AllocError> {
        self.frames.settle(self.t);
        let child = self.frames.fork_table(self.t)?;
        if let Some(before) = self.child {
            self.frames.drop_table(before);
        }
        self.child = Some(child);
        for k in 0..2 {
            self.cards[k].clean_all();
            self.outward[k].clear();
        }
        Ok(())
    }

    fn see(&mut self, at: Addr) -> u32 {
        let shape = read_shape(&mut self.frames, self.t, at);
        match read_header(&mut self.frames, self.t, at) {
            Header::Number(number) => self.ats[number as usize] = at,
            Header::Forward(_) => {}
        }
        self.size(shape)
    }

    fn see_spots(&mut self, mut next: Option<Addr>, which: usize) {
        while let Some(at) = next {
            let _ = self.see(at);
            let behind = Addr(at.0 + 8);
            next = if which == 0 {
                self.image.starts().next_from(behind)
            } else {
                self.zygote.starts().next_from(behind)
            };
        }
    }

    fn see_young(&mut self) {
        let mut next = self.regions.first();
        while let Some(at) = next {
            let size = self.see(at);
            next = self.regions.next(at, size);
        }
    }

    /// Finds all objects anew: by the starts of the image and the zygote space, the walk of the regions, and the rows.
    pub fn find_all(&mut self) {
        for k in 0..self.ats.len() {
            self.ats[k] = Addr(0);
        }
        self.see_spots(self.image.starts().next_from(Addr(IMAGE_BASE)), 0);
        self.see_spots(self.zygote.starts().next_from(Addr(ZYGOTE_BASE)), 1);
        self.see_young();
        for k in 0..self.larges.rows().len() {
            let slot = self.larges.rows()[k].slot;
            let _ = self.see(Addr(LARGE_BASE + slot * LARGE_SLOT_BYTES));
        }
    }

    pub fn word(&mut self, t: TableNo, at: Addr) -> u32 {
        if self.frames.frame_of(t, PageNo(at.0 / 4096)).is_none() {
            return u32::MAX;
        }
        self.frames.read_u32(t, at)
    }
}
"""

SHOWS = r"""//! What a heap is printed as.

use crate::heap::{BUDGET, Heap};
use cow_pages::{Addr, PageNo, TableNo};
use model_numbers::{
    IMAGE_BASE, LARGE_BASE, LARGE_SLOT_BYTES, LARGE_SLOT_COUNT, PAGE_BYTES, REGION_BASE, REGION_BYTES,
    ZYGOTE_BASE,
};
use object_view::{read_shape, size_of};
use std::io;

/// The pages in which something may be mapped: the first of the image and the zygote window, and those of the regions and
/// slots.
const RUNS: [(u32, u32); 4] = [
    (IMAGE_BASE, 64),
    (ZYGOTE_BASE, 512),
    (REGION_BASE, 2 * BUDGET * (REGION_BYTES / PAGE_BYTES)),
    (LARGE_BASE, LARGE_SLOT_COUNT * (LARGE_SLOT_BYTES / PAGE_BYTES)),
];

/// A sum that tells the words of a table's pages, and which these are.
pub fn sum_of(heap: &mut Heap, t: TableNo) -> u64 {
    let mut sum: u64 = 0;
    for (base, count) in RUNS {
        for k in 0..count {
            let at = base + k * PAGE_BYTES;
            if heap.frames.frame_of(t, PageNo(at / PAGE_BYTES)).is_none() {
                continue;
            }
            for word in 0..PAGE_BYTES / 4 {
                let value = u64::from(heap.frames.read_u32(t, Addr(at + 4 * word)));
                sum = (sum * 31 + value + u64::from(at)) % 1_000_000_007;
            }
        }
    }
    sum
}

/// A sum that tells all that a refused call leaves as it was.
pub fn whole(heap: &mut Heap) -> u64 {
    let t = heap.t;
    let mut sum = sum_of(heap, t);
    for k in 0..heap.roots.len() {
        sum = (sum * 31 + u64::from(heap.roots[k].0)) % 1_000_000_007;
    }
    for k in 0..heap.larges.rows().len() {
        let row = heap.larges.rows()[k];
        sum = (sum * 31 + u64::from(row.slot) * 4 + u64::from(row.promoted as u8) * 2 + u64::from(row.marked as u8)) % 1_000_000_007;
    }
    let counts = [
        heap.regions.used(),
        heap.regions.objects(),
        heap.regions.pages(),
        heap.zygote.fill(),
        heap.larges.cost(),
        heap.frames.used() as u32,
    ];
    for count in counts {
        sum = (sum * 31 + u64::from(count)) % 1_000_000_007;
    }
    sum
}

fn show_object(rt: &HostRuntime, heap: &mut Heap, number: usize) -> io::Result<()> {
    let at = heap.ats[number];
    if at.0 == 0 {
        return Ok(());
    }
    let t = heap.t;
    let shape = read_shape(&mut heap.frames, t, at);
    let size = size_of(&heap.classes, shape) as u32;
    print!(rt; "object {number} {} {size}", at.0)?;
    let mut rest: u64 = 0;
    for k in 0..size / 4 {
        let word = heap.word(t, Addr(at.0 + 4 * k));
        if k < 12 {
            print!(rt; " {word}")?;
        } else {
            rest = (rest * 31 + u64::from(word)) % 1_000_000_007;
        }
    }
    println!(rt; " {rest}")
}

fn show_pages(rt: &HostRuntime, heap: &Heap) -> io::Result<()> {
    for (base, count) in RUNS {
        for k in 0..count {
            let page = PageNo(base / PAGE_BYTES + k);
            let Some(frame) = heap.frames.frame_of(heap.t, page) else {
                continue;
            };
            let shared = match heap.child {
                Some(child) => heap.frames.frame_of(child, page) == Some(frame),
                None => false,
            };
            println!(rt; "page {} {} {}", page.0, shared as u8, heap.frames.written(heap.t, page) as u8)?;
        }
    }
    Ok(())
}

/// Prints the objects by their numbers, what the roots hold, the mapped pages, and the child's sum.
pub fn show(rt: &HostRuntime, heap: &mut Heap) -> io::Result<()> {
    for number in 1..heap.ats.len() {
        show_object(rt, heap, number)?;
    }
    for k in 0..heap.roots.len() {
        println!(rt; "root {}", heap.roots[k].0)?;
    }
    show_pages(rt, heap)?;
    if let Some(child) = heap.child {
        let sum = sum_of(heap, child);
        println!(rt; "child {sum}")?;
    }
    println!(rt; "counts {} {} {} {}", heap.regions.used(), heap.regions.objects(), heap.larges.cost(), heap.zygote.fill())?;
    println!(rt; "shown")
}
"""

STEPS = r"""//! The steps that words name.

use crate::heap::Heap;
use crate::shows::{show, sum_of, whole};
use class_layout::Kind;
use object_view::Shape;
use std::io;

fn number(words: &[String], i: usize) -> u32 {
    match words[i].parse::<u32>() {
        Ok(n) => n,
        Err(_) => 0,
    }
}

fn instance(words: &[String], i: usize) -> Shape {
    Shape::Instance(number(words, i))
}

fn references(words: &[String], i: usize) -> Shape {
    Shape::Array {
        kind: Kind::Ref,
        count: number(words, i),
    }
}

fn collect(rt: &HostRuntime, heap: &mut Heap) -> io::Result<()> {
    let slots = heap.slots()?;
    let before = heap.frames.immune_reads();
    let was = whole(heap);
    let read = heap.frames.immune_reads() - before;
    let start = before + read;
    let kept = match heap.collect(rt.alloc(), &slots) {
        Ok(kept) => kept,
        Err(_) => {
            println!(rt; "refused {}", (whole(heap) == was) as u8)?;
            heap.collect(rt.alloc(), &slots)?
        }
    };
    let reads = heap.frames.immune_reads() - start;
    println!(rt; "collected {} {} {} {reads}", kept.kept, kept.freed, slots.len())?;
    heap.find_all();
    Ok(())
}

fn fork(rt: &HostRuntime, heap: &mut Heap) -> io::Result<()> {
    collect(rt, heap)?;
    let slots = heap.slots()?;
    let was = whole(heap);
    let start = heap.frames.immune_reads();
    let moved = match heap.promote(rt.alloc(), &slots) {
        Ok(moved) => moved,
        Err(_) => {
            println!(rt; "refused {}", (whole(heap) == was) as u8)?;
            heap.promote(rt.alloc(), &slots)?
        }
    };
    let reads = heap.frames.immune_reads() - start;
    heap.fork()?;
    heap.find_all();
    let t = heap.t;
    let sum = sum_of(heap, t);
    println!(rt; "forked {moved} {reads} {sum}")
}

/// Does the step that the words from the i-th on name, and answers where the next begins.
pub fn step(rt: &HostRuntime, heap: &mut Heap, words: &[String], i: usize) -> io::Result<usize> {
    match words[i].as_str() {
        "image" => heap.add_image(instance(words, i + 1))?,
        "images" => heap.add_image(references(words, i + 1))?,
        "new" => heap.add_young(instance(words, i + 1))?,
        "array" => heap.add_young(references(words, i + 1))?,
        "bytes" => heap.add_large(number(words, i + 1))?,
        "set" => {
            let to = heap.ats[number(words, i + 3) as usize];
            heap.put(number(words, i + 1), Kind::Ref, number(words, i + 2), i64::from(to.0))?;
        }
        "put" => {
            let value = i64::from(number(words, i + 3));
            heap.put(number(words, i + 1), Kind::Byte, number(words, i + 2), value)?;
        }
        "root" => {
            let at = heap.ats[number(words, i + 1) as usize];
            heap.roots.push(at)?;
        }
        "drop" => {
            let _ = heap.roots.remove(number(words, i + 1) as usize);
        }
        "gc" => collect(rt, heap)?,
        "fork" => fork(rt, heap)?,
        _ => show(rt, heap)?,
    }
    Ok(i + match words[i].as_str() {
        "set" | "put" => 4,
        "gc" | "fork" | "show" => 1,
        _ => 2,
    })
}
"""

FILES = {"src/main.rt": MAIN, "src/heap.rt": HEAP, "src/shows.rt": SHOWS, "src/steps.rt": STEPS}
USED = [
    "card_table",
    "class_layout",
    "cow_pages",
    "evacuate",
    "image_space",
    "large_objects",
    "mod_union",
    "model_numbers",
    "object_collection",
    "object_view",
    "raw_objects",
    "region_space",
    "zygote_compact",
    "zygote_space",
]

# the numbers of the model, as docs/crates.md gives them
CLASSES, IMAGE, ZYGOTE, REGIONS, LARGE = 0x10000000, 0x20000000, 0x30000000, 0x40000000, 0x80000000
REGION, PAGE, SLOT, BUDGET, MODULUS = 262144, 4096, 1048576, 8, 1_000_000_007
SIZES = {1: 16, 2: 24, 3: 32}


def up(n, unit):
    """The next multiple of the unit."""
    return (n + unit - 1) // unit * unit


class Thing:
    """A plain object: its kind and count or class, its place, and what its slots hold."""

    def __init__(self, number, kind, count, place):
        self.number, self.kind, self.count, self.place = number, kind, count, place
        self.refs = {offset: 0 for offset in self.offsets()}
        self.bytes = {}

    def offsets(self):
        if self.kind == "refs":
            return range(12, 12 + 4 * self.count, 4)
        return {"bytes": []}.get(self.kind, [8] if self.count == 1 else [8, 12])

    def unrounded(self):
        each = {"refs": 4, "bytes": 1}.get(self.kind)
        return SIZES[self.count] if each is None else 12 + each * self.count

    def size(self):
        return up(self.unrounded(), 8)

    def weak(self, _offset):
        return self.kind == "class" and self.count == 1

    def immune(self):
        return not isinstance(self.place, str) or self.place == "promoted"

    def words(self, address):
        """Its words, with addresses in place of what it holds."""
        words = [0] * (self.size() // 4)
        words[0] = CLASSES + {"class": 64 * self.count, "refs": 0x20, "bytes": 0x28}[self.kind]
        words[1] = 0x80000000 + self.number
        if self.kind != "class":
            words[2] = self.count
        for offset, to in self.refs.items():
            words[offset // 4] = address[to] if to else 0
        for offset, value in self.bytes.items():
            words[offset // 4] |= value << 8 * (offset % 4)
        return words


class Plain:
    """Plain objects by number, and the roots."""

    def __init__(self):
        self.things, self.roots, self.next = {}, [], 1
        self.touched, self.forked = set(), False

    def add(self, kind, count, place):
        if place == "image":
            place = (IMAGE, sum(t.size() for t in self.things.values()))
        self.things[self.next] = Thing(self.next, kind, count, place)
        self.next += 1

    def packed(self, extra=()):
        """The packing place of each young object, by number, and the end."""
        end, places = 0, {}
        for n, size in [(t.number, t.size()) for t in self.things.values() if t.place == "young"] + list(extra):
            if end // REGION != (end + size - 1) // REGION:
                end = up(end, REGION)
            places[n] = end
            end += size
        return places, end

    def fits(self, kind, count, place):
        new = Thing(0, kind, count, place)
        extra = [(0, new.size())] if place == "young" else []
        cost = sum(up(t.unrounded(), REGION) // REGION for t in self.things.values() if t.place in ("large", "promoted"))
        more = up(new.unrounded(), REGION) // REGION if place == "large" else 0
        return up(self.packed(extra)[1], REGION) // REGION + cost + more <= BUDGET

    def touch(self, thing, offset, address):
        if thing.immune():
            self.touched.add((address[thing.number] + offset) // PAGE)

    def reached(self):
        left = [n for n in self.roots if n]
        for thing in self.things.values():
            if thing.immune():
                left += [to for offset, to in thing.refs.items() if to and not thing.weak(offset)]
        seen = set()
        while left:
            n = left.pop()
            if n not in seen:
                seen.add(n)
                thing = self.things[n]
                left += [to for offset, to in thing.refs.items() if to and not thing.weak(offset)]
        return seen

    def outward(self):
        return sum(1 for t in self.things.values() if t.immune() for to in t.refs.values() if to and not self.things[to].immune())

    def collect(self):
        """How many were kept that aren't immune, and how many freed."""
        seen = self.reached()
        before = sum(1 for t in self.things.values() if not t.immune())
        self.things = {n: t for n, t in self.things.items() if t.immune() or n in seen}
        for thing in self.things.values():
            for offset, to in thing.refs.items():
                if to not in self.things:
                    thing.refs[offset] = 0
        kept = sum(1 for t in self.things.values() if not t.immune())
        return kept, before - kept

    def fill(self):
        return max([0] + [t.place[1] + t.size() for t in self.things.values() if not isinstance(t.place, str) and t.place[0] == ZYGOTE])

    def promote(self):
        """How many moved, and how many reads are allowed."""
        at, moved, reads = up(self.fill(), PAGE), 0, 0
        for thing in self.things.values():
            if thing.place == "young":
                thing.place = (ZYGOTE, at)
                at += thing.size()
                moved += 1
                reads += thing.size() + 16
            elif thing.place == "large":
                thing.place = "promoted"
        return moved, reads


class Differs(Exception):
    """What the program printed isn't what plain objects have."""


def expect(what, seen, wanted):
    if seen != wanted:
        raise Differs(f"{what}: {seen}, wanted {wanted}"[:2000])


class Shown:
    """What one `show` printed."""

    def __init__(self, lines):
        self.objects, self.pages, self.roots, self.counts, self.child = {}, {}, [], None, None
        for line in lines:
            name, *numbers = line.split()
            numbers = [int(n) for n in numbers]
            if name == "object":
                self.objects[numbers[0]] = numbers[1:]
            elif name == "page":
                self.pages[numbers[0]] = tuple(numbers[1:])
            elif name == "root":
                self.roots.append(numbers[0])
            elif name == "counts":
                self.counts = tuple(numbers)
            elif name == "child":
                self.child = numbers[0]

    def addresses(self):
        return {n: it[0] for n, it in self.objects.items()}


def check_addresses(plain, address, before):
    """Spots stand where they are, large objects where they were, and young ones packed in regions."""
    places, _ = plain.packed()
    regions = {}
    for n, thing in plain.things.items():
        at = address[n]
        if thing.place == "young":
            expect(f"offset of {n} in its region", (at - REGIONS) % REGION, places[n] % REGION)
            region = (at - REGIONS) // REGION
            expect(f"region of {n}", (0 <= region < 2 * BUDGET, regions.setdefault(places[n] // REGION, region)), (True, region))
        elif thing.place in ("large", "promoted"):
            expect(f"slot of {n}", ((at - LARGE) % SLOT, at), (0, before.get(n, at)))
        else:
            expect(f"spot of {n}", at, sum(thing.place))
    expect("regions", len(set(regions.values())), len(regions))


def check_words(plain, shown, address):
    for n, thing in plain.things.items():
        _, size, *words = shown.objects[n]
        expect(f"size of {n}", size, thing.size())
        wanted = thing.words(address)
        rest = 0
        for word in wanted[12:]:
            rest = (rest * 31 + word) % MODULUS
        expect(f"words of {n}", words, wanted[:12] + [rest])


def check_pages(plain, shown, address):
    wanted, immune = set(), set()
    for n, thing in plain.things.items():
        pages = range(address[n] // PAGE, (address[n] + thing.size() - 1) // PAGE + 1)
        wanted.update(pages)
        if thing.immune():
            immune.update(pages)
    expect("pages", sorted(shown.pages), sorted(wanted))
    if plain.forked:
        for page, (shared, written) in shown.pages.items():
            apart = page in plain.touched or page not in immune
            expect(f"sharing of page {page}", shared, 0 if apart else 1)
            if page in immune:
                expect(f"flag of page {page}", written, 1 if page in plain.touched else 0)


def check(plain, shown, before):
    address = shown.addresses()
    expect("objects", sorted(address), sorted(plain.things))
    check_addresses(plain, address, before)
    check_words(plain, shown, address)
    check_pages(plain, shown, address)
    expect("roots", shown.roots, [address[n] if n else 0 for n in plain.roots])
    used = up(plain.packed()[1], REGION) // REGION
    young = sum(1 for t in plain.things.values() if t.place == "young")
    cost = sum(up(t.unrounded(), REGION) // REGION for t in plain.things.values() if t.place in ("large", "promoted"))
    expect("counts", shown.counts, (used, young, cost, plain.fill()))
    return address


class Script:
    """Random steps, as words, and what is to be done with plain objects at each."""

    def __init__(self, seed):
        self.draw, self.words, self.acts = random.Random(seed), [], []
        self.plain = Plain()
        self.make()

    def step(self, *words):
        self.words += [str(word) for word in words]
        self.acts.append(words)
        act(self.plain, words, None)

    def some(self, none=0.0):
        if self.draw.random() < none or not self.plain.things:
            return 0
        return self.draw.choice(list(self.plain.things))

    def store(self):
        thing = self.plain.things[self.some()]
        if thing.kind == "bytes":
            self.step("put", thing.number, 12 + self.draw.randrange(thing.count), self.draw.randrange(128))
        elif thing.refs:
            offset = self.draw.choice(list(thing.refs))
            to = self.some(0.2)
            # an object of the image holds others of the image alone until there are others
            self.step("set", thing.number, offset, to)

    def new(self):
        kind = self.draw.random()
        if kind < 0.65:
            word, count, place = "new", self.draw.choice([1, 2, 3]), "young"
        elif kind < 0.8:
            word, count, place = "array", self.draw.choice([0, 5, 300, 30_000, 50_000]), "young"
        else:
            word, count, place = "bytes", self.draw.randrange(12_276, 60_000), "large"
        name = {"new": "class", "array": "refs", "bytes": "bytes"}[word]
        if self.plain.fits(name, count, place):
            self.step(word, count)

    def make(self):
        for _ in range(self.draw.randrange(4, 9)):
            self.step("image", self.draw.choice([1, 2, 3]))
        self.step("images", self.draw.choice([3, 700, 3_000]))
        for _ in range(12):
            self.store()
        self.step("root", self.some())
        for _ in range(self.draw.randrange(3, 6)):
            for _ in range(self.draw.randrange(4, 12)):
                self.new()
                for _ in range(3):
                    self.store()
                if self.draw.random() < 0.4:
                    self.step("root", self.some(0.1))
                elif self.draw.random() < 0.2 and self.plain.roots:
                    self.step("drop", self.draw.randrange(len(self.plain.roots)))
            self.step("show")
            self.step(self.draw.choice(["gc", "gc", "fork"]))
            self.step("show")


def act(plain, words, address):
    """Does a step with plain objects. Addresses are there where pages are to be told."""
    name, *numbers = words
    if name in ("image", "images"):
        plain.add("class" if name == "image" else "refs", numbers[0], "image")
    elif name == "new":
        plain.add("class", numbers[0], "young")
    elif name == "array":
        plain.add("refs", numbers[0], "young")
    elif name == "bytes":
        plain.add("bytes", numbers[0], "large")
    elif name in ("set", "put"):
        thing = plain.things[numbers[0]]
        (thing.refs if name == "set" else thing.bytes)[numbers[1]] = numbers[2]
        if address is not None:
            plain.touch(thing, numbers[1], address)
    elif name == "root":
        plain.roots.append(numbers[0])
    elif name == "drop":
        plain.roots.pop(numbers[0])
    elif name == "gc":
        return plain.collect()
    elif name == "fork":
        kept = plain.collect()
        slots = plain.outward()
        moved = plain.promote()
        plain.touched, plain.forked = set(), True
        return kept + moved + (slots,)
    return None


def compare(seed, lines):
    """Goes through the steps of a seed with what the program printed."""
    acts, plain, address, child = Script(seed).acts, Plain(), {}, None
    lines = iter(lines)
    for words in acts:
        spots = {n: sum(t.place) for n, t in plain.things.items() if not isinstance(t.place, str)}
        slots = plain.outward()
        done = act(plain, words, {**address, **spots})
        if words[0] in ("gc", "fork"):
            kept, freed, found, reads = next_numbers(lines, "collected")
            expect("collected", (kept, freed, found, reads <= 4 * slots), (done[0], done[1], slots, True))
        if words[0] == "fork":
            moved, reads, child = next_numbers(lines, "forked")
            expect("forked", (moved, reads <= done[3] + 4 * done[4]), (done[2], True))
        if words[0] == "show":
            block = []
            for line in lines:
                if line == "shown":
                    break
                block.append(line)
            shown = Shown(block)
            address = check(plain, shown, address)
            expect("the child's pages", shown.child, child)
    return len(plain.things), sum(1 for words in acts if words[0] in ("gc", "fork"))


def next_numbers(lines, name):
    for line in lines:
        if line.startswith(name + " "):
            return [int(n) for n in line.split()[1:]]
        if not line.startswith("refused "):
            raise Differs(f"{line}, wanted a line {name}")
    raise Differs(f"no line {name}")


def run(crate, seed, flags):
    words = Script(seed).words
    done = subprocess.run(["rt", "try", "--seconds", "600", *flags, "--", *words], cwd=crate, capture_output=True, text=True, check=False)
    lines = [line for line in done.stdout.split("\n") if re.match(r"(object|page|root|counts|child|shown|collected|forked|refused)\b", line)]
    return lines, done.stdout[-2000:] + done.stderr[-4000:]


def seeds(crate, first, last):
    for seed in range(first, last + 1):
        lines, said = run(crate, seed, [])
        try:
            left, collections = compare(seed, lines)
        except Differs as it:
            raise SystemExit(f"seed {seed}: {it}\n{said if not lines else str()}") from it
        print(f"seed {seed}: {left} objects at the end, {collections} collections, all alike", flush=True)


def refuse(crate, first, last):
    ends = {}
    for number in range(first, last + 1):
        lines, said = run(crate, 1, ["--fail-alloc", str(number)])
        refused = [line for line in lines if line.startswith("refused ")]
        if not refused:
            end = "refused elsewhere" if "shown" not in lines[-1:] else "not refused"
        elif refused != ["refused 1"]:
            end = "something had changed"
        else:
            try:
                compare(1, lines)
                end = "all as before, and done at the second try"
            except Differs as it:
                end = f"done otherwise: {it}"
        ends.setdefault(end, []).append(number)
    for end, numbers in ends.items():
        print(f"{end}: {', '.join(map(str, numbers))}")


def main():
    parser = argparse.ArgumentParser()
    parser.add_argument("--seeds", type=int, nargs=2, default=(1, 5))
    parser.add_argument("--refuse", type=int, nargs=2)
    words = parser.parse_args()
    with tempfile.TemporaryDirectory() as folder:
        crate = program.write_crates(folder, "joined_heap", USED, FILES)
        if words.refuse:
            refuse(crate, *words.refuse)
        else:
            seeds(crate, *words.seeds)


if __name__ == "__main__":
    main()
