//! Every call that is exported, once, with what VIEWER.md's tables say of it.

use crate::plan::layout::{List, LIGHT_WORDS, MATERIAL_WORDS, ROW};

/// Words of every answer.
pub const OUT_WORDS: usize = 16;
pub const OUT_BYTES: usize = 4 * OUT_WORDS;

struct Row {
    name: &'static str,
    args: usize,
    named: usize,
    enters: Option<List>,
    tests: &'static [List],
}

/// Makes `Call` of a table: a row for each call, in groups that are lists of their own too.
macro_rules! calls {
    ($($(#[$of_group:meta])* $group:ident {
        $($call:ident = $name:ident: args $args:expr, out $named:expr
            $(, enters $list:ident)? $(, tests $($tested:ident)+)?;)+
    })+) => {
        #[derive(Clone, Copy, Debug, PartialEq)]
        pub enum Call {
            $($($call,)+)+
        }

        impl Call {
            pub const ALL: &[Call] = &[$($(Call::$call,)+)+];
            $($(#[$of_group])* pub const $group: &[Call] = &[$(Call::$call),+];)+

            const fn row(self) -> Row {
                match self {
                    $($(Call::$call => Row {
                        name: stringify!($name),
                        args: $args,
                        named: $named,
                        enters: [$(Some(List::$list),)? None][0],
                        tests: &[$($(List::$tested),+)?],
                    },)+)+
                }
            }
        }
    };
}

calls! {
    /// Lent `args` and `out` alone. Stored answers name them by their place, so a new one comes last.
    SCALAR {
        Root = viewer_root: args 1, out 1;
        Acos = viewer_acos: args 1, out 1;
        PrimDist = viewer_prim_dist: args 12, out 1;
        PrimBounds = viewer_prim_bounds: args 9, out 6;
        FormFactor = viewer_form_factor: args 12, out 1;
        Fresnel = viewer_fresnel: args 4, out 3;
        F0 = viewer_f0: args MATERIAL_WORDS, out 3;
        DiffuseAlbedo = viewer_diffuse_albedo: args MATERIAL_WORDS, out 3;
    }
    /// Each adds to a list of the plan.
    ENTRIES {
        AddMaterial = viewer_add_material: args MATERIAL_WORDS, out 1, enters Materials;
        AddPlane = viewer_add_plane: args ROW, out 1, enters Planes, tests Planes Objects;
        AddObject = viewer_add_object: args ROW, out 1, enters Objects, tests Planes Objects;
        AddLight = viewer_add_light: args LIGHT_WORDS, out 1, enters Lights;
    }
    /// They write a tree of the plan's objects, and have no `args`.
    TREES {
        Build = viewer_build: args 0, out 1, tests Objects;
        Offer = viewer_offer: args 0, out 1, tests Objects;
    }
    /// They ask by the plain list or by the tree, as the word `tree` says.
    ASKS {
        Query = viewer_query: args 5, out 4, tests Objects;
        DistMat = viewer_dist_mat: args 3, out 2, tests Planes Objects;
        Trace = viewer_trace: args 8, out 7, tests Planes Objects;
        SoftShadow = viewer_soft_shadow: args 9, out 2, tests Planes Objects;
        Direct = viewer_direct: args 14, out 4, tests Planes Objects Lights;
        DirectDiffuse = viewer_direct_diffuse: args 9, out 4, tests Planes Objects Lights;
    }
    /// Lent light records, `args` and `out`.
    RECORDS {
        EmitterHit = viewer_emitter_hit: args 7, out 5;
    }
}

impl Call {
    /// The calls that are lent a plan.
    pub fn on_plans() -> impl Iterator<Item = Call> {
        [Call::ENTRIES, Call::TREES, Call::ASKS].into_iter().flatten().copied()
    }

    /// The same, each with every word `tree` that it takes.
    pub fn with_trees() -> impl Iterator<Item = (Call, u32)> {
        Call::on_plans().flat_map(|call| call.trees().iter().map(move |&tree| (call, tree)))
    }

    pub fn name(self) -> &'static str {
        self.row().name
    }

    /// Words of `args` below which they are short, whatever stands in them.
    pub fn args_words(self) -> usize {
        self.row().args
    }

    /// Words of `out` that the answer names; the rest are 0.
    pub fn named_words(self) -> usize {
        self.row().named
    }

    /// The list that an entry adds to.
    pub fn enters(self) -> Option<List> {
        self.row().enters
    }

    /// The lists of the plan that are tested, pieces with their cutters.
    pub fn tests(self) -> &'static [List] {
        self.row().tests
    }

    /// Those of them that hold pieces.
    pub fn tested_pieces(self) -> impl Iterator<Item = List> {
        self.tests().iter().copied().filter(|&list| list != List::Lights)
    }

    pub fn tests_lights(self) -> bool {
        self.tests().contains(&List::Lights)
    }

    pub fn asks(self) -> bool {
        Call::ASKS.contains(&self)
    }

    /// Whether the tree's tables are lent to be written.
    pub fn writes_tree(self) -> bool {
        Call::TREES.contains(&self) || self.enters() == Some(List::Objects)
    }

    /// The words `tree` with which the call can be accepted; one where it has no such word.
    pub fn trees(self) -> &'static [u32] {
        if self.asks() {
            &[0, 1]
        } else {
            &[0]
        }
    }

    /// Ends the run where nothing is said of the call: it is of another group, or new.
    #[track_caller]
    pub fn stray(self) -> ! {
        panic!("{} is not known here", self.name())
    }
}
