//! A tetrahedron without another one, as an OFF: arrays [EXPRESSION]
use std::{env, mem, process, slice};

/// `EMBER_DIGITS` of ember.h.
const DIGITS_OF_STEP: u32 = u32::MAX;

/// `ember_block`.
#[repr(C)]
struct Block {
    at: *mut u8,
    len: usize,
}

/// `ember_mesh`.
#[repr(C)]
struct Mesh {
    vertices: *const f64,
    n_vertices: usize,
    triangles: *const u32,
    n_triangles: usize,
}

/// `ember_source`.
#[repr(C)]
struct Source {
    mesh: u32,
    triangle: u32,
    flags: u32,
}

/// `ember_solid`.
#[repr(C)]
struct Solid {
    status: u32,
    mesh: u32,
    place: u64,
    line: Block,
    vertices: *mut f64,
    n_vertices: usize,
    triangles: *mut u32,
    n_triangles: usize,
    sources: *mut Source,
    step: [u64; 2],
    offset: [[u64; 2]; 3],
    faces: u64,
    planes: u64,
    vanished: u64,
    shared: u64,
    flat: u64,
    turned: u64,
    is_manifold: u64,
}

extern "C" {
    fn ember_abi() -> u32;
    // `ember_boolean` is inline in the header, so other languages call this.
    fn ember_boolean_with(
        meshes: *const Mesh,
        n_meshes: usize,
        expression: *const u8,
        n_expression: usize,
        step: *const u8,
        n_step: usize,
        digits: u32,
        wants: u32,
        solid: *mut Solid,
    ) -> u32;
    fn free(block: *mut u8);
}

/// A copy of a block of the library, which is freed.
unsafe fn taken<T: Clone>(at: *mut T, len: usize) -> Vec<T> {
    if at.is_null() {
        return Vec::new();
    }
    // The library gave `len` items there, which came from malloc, and nobody else has them.
    let items = slice::from_raw_parts(at, len).to_vec();
    free(at.cast());
    items
}

fn main() {
    let runs_here = is_x86_feature_detected!("sse4.2") && is_x86_feature_detected!("popcnt") && is_x86_feature_detected!("ssse3");
    assert!(runs_here && unsafe { ember_abi() } == 1);
    let one = [0., 0., 0., 2., 0., 0., 0., 2., 0., 0., 0., 2.];
    let other = one.map(|place| place + 0.5);
    let sides = [0, 2, 1, 0, 1, 3, 0, 3, 2, 1, 2, 3];
    let mesh = |vertices: &[f64; 12]| Mesh { vertices: vertices.as_ptr(), n_vertices: 4, triangles: sides.as_ptr(), n_triangles: 4 };
    let meshes = [mesh(&one), mesh(&other)];
    let (expression, step) = (env::args().nth(1).unwrap_or("m1&!m2".into()), "nice");
    // All zeros are a solid without arrays.
    let mut solid: Solid = unsafe { mem::zeroed() };
    let (line, vertices, triangles) = unsafe {
        let texts = (expression.as_ptr(), expression.len(), step.as_ptr(), step.len());
        ember_boolean_with(meshes.as_ptr(), meshes.len(), texts.0, texts.1, texts.2, texts.3, DIGITS_OF_STEP, 0, &mut solid);
        (taken(solid.line.at, solid.line.len), taken(solid.vertices, 3 * solid.n_vertices), taken(solid.triangles, 3 * solid.n_triangles))
    };
    eprint!("{}", String::from_utf8_lossy(&line));
    if solid.status == 0 {
        println!("OFF\n{} {} 0", solid.n_vertices, solid.n_triangles);
        vertices.chunks(3).for_each(|it| println!("{} {} {}", it[0], it[1], it[2]));
        triangles.chunks(3).for_each(|it| println!("3 {} {} {}", it[0], it[1], it[2]));
    }
    process::exit(solid.status as i32);
}
