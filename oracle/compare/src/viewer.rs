//! Our library's calls: a slice passes as a pointer and then its length in bytes.

use crate::call::Call;
use crate::plan::Lent;

/// Declares calls of the library and makes the one that is meant. They stand by their parameters,
/// before each of which is what it is: `lent` a slice that is read, `mut` one that may be written,
/// `word` a number.
macro_rules! make {
    ($call:ident { $($parameters:tt: $($of:ident = $name:ident),+;)+ }) => {
        match $call {
            $($(Call::$of => make!(@ $name [] [] $parameters),)+)+
            _ => $call.stray(),
        }
    };
    (@ $name:ident [$($c:ty)*] [$($given:expr,)*] (lent $slice:ident $(, $($rest:tt)+)?)) => {
        make!(@ $name [$($c)* *const u8 usize] [$($given,)* $slice.as_ptr(), $slice.len(),] ($($($rest)+)?))
    };
    (@ $name:ident [$($c:ty)*] [$($given:expr,)*] (mut $slice:ident $(, $($rest:tt)+)?)) => {
        make!(@ $name [$($c)* *mut u8 usize] [$($given,)* $slice.as_mut_ptr(), $slice.len(),] ($($($rest)+)?))
    };
    (@ $name:ident [$($c:ty)*] [$($given:expr,)*] (word $word:ident $(, $($rest:tt)+)?)) => {
        make!(@ $name [$($c)* u32] [$($given,)* $word,] ($($($rest)+)?))
    };
    (@ $name:ident [$($c:ty)*] [$($given:expr,)*] ()) => {{
        unsafe extern "C" {
            fn $name($(_: $c),*) -> u32;
        }
        unsafe { $name($($given),*) }
    }};
}

/// The calls that are lent `args` and `out` alone.
#[inline]
pub fn send(call: Call, args: &[u8], out: &mut [u8]) -> u32 {
    make!(call {
        (lent args, mut out):
            Root = viewer_root,
            Acos = viewer_acos,
            PrimDist = viewer_prim_dist,
            PrimBounds = viewer_prim_bounds,
            FormFactor = viewer_form_factor,
            Fresnel = viewer_fresnel,
            F0 = viewer_f0,
            DiffuseAlbedo = viewer_diffuse_albedo;
    })
}

/// The calls that are lent light records too.
#[inline]
pub fn send_records(call: Call, lights: &[u8], args: &[u8], out: &mut [u8]) -> u32 {
    make!(call {
        (lent lights, lent args, mut out):
            EmitterHit = viewer_emitter_hit;
    })
}

/// The calls that are lent a plan.
#[inline]
pub fn lend(call: Call, lent: &mut Lent) -> u32 {
    let tree = lent.tree;
    let plan = lent.plan.bytes_mut();
    let nodes = lent.nodes.bytes_mut();
    let order = lent.order.bytes_mut();
    let more_nodes = lent.offered_nodes.bytes();
    let more_order = lent.offered_order.bytes();
    let args = lent.args.bytes();
    let out = lent.out.bytes_mut();
    make!(call {
        (mut plan, lent args, mut out):
            AddMaterial = viewer_add_material,
            AddPlane = viewer_add_plane,
            AddLight = viewer_add_light;
        (mut plan, mut nodes, mut order, lent args, mut out):
            AddObject = viewer_add_object;
        (lent plan, mut nodes, mut order, mut out):
            Build = viewer_build;
        (lent plan, mut nodes, mut order, lent more_nodes, lent more_order, mut out):
            Offer = viewer_offer;
        (lent plan, lent nodes, lent order, word tree, lent args, mut out):
            Query = viewer_query,
            DistMat = viewer_dist_mat,
            Trace = viewer_trace,
            SoftShadow = viewer_soft_shadow,
            Direct = viewer_direct,
            DirectDiffuse = viewer_direct_diffuse;
    })
}
