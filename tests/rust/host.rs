// The C host (include/zuntjev.h), with the buffers that it is lent: what a driver that links libhost.a needs of it.
extern "C" {
    fn zuntjev_build(
        vertices: *const u8, vertices_len: usize, n: usize, edges: *const u8, edges_len: usize, m: usize,
        same_size: i32, extra_walls: i32, state: *mut u8, state_len: usize,
    ) -> i32;
    fn zuntjev_initialize(
        state: *mut u8, state_len: usize, table: *mut u8, table_len: usize, list: *mut u8, list_len: usize,
        log: *mut u8, log_len: usize, cursor: *mut u8, cursor_len: usize,
    ) -> i32;
    fn zuntjev_propagate(
        state: *mut u8, state_len: usize, table: *mut u8, table_len: usize, list: *mut u8, list_len: usize,
        log: *mut u8, log_len: usize, cursor: *mut u8, cursor_len: usize, lit: i32, pending: i32,
    ) -> i32;
    fn zuntjev_undo(
        state: *mut u8, state_len: usize, log: *const u8, log_len: usize, cursor: *mut u8, cursor_len: usize, lit: i32,
    ) -> i32;
    fn zuntjev_calc_reason(
        state: *const u8, state_len: usize, log: *const u8, log_len: usize, cursor: *const u8, cursor_len: usize,
        lit: i32, buffer: *mut u8, buffer_len: usize,
    ) -> i32;
    fn zuntjev_calc_last(
        state: *const u8, state_len: usize, log: *const u8, log_len: usize, cursor: *const u8, cursor_len: usize,
        buffer: *mut u8, buffer_len: usize,
    ) -> i32;
    fn zuntjev_run(
        state: *const u8, state_len: usize, log: *const u8, log_len: usize, cursor: *const u8, cursor_len: usize,
        from: i32, to: i32, buffer: *mut u8, buffer_len: usize,
    ) -> i32;
    fn zuntjev_check(state: *const u8, state_len: usize) -> i32;
    fn zuntjev_page(
        state: *const u8, state_len: usize, log: *const u8, log_len: usize, cursor: *const u8, cursor_len: usize,
        page: *mut u8, page_len: usize,
    ) -> i32;
}

pub const STATE_LEN: usize = 133440;
pub const LINE_LEN: usize = 39;
pub const CONFLICT: i32 = -100;
pub const NOTED: i32 = -101;

#[derive(Clone, PartialEq)]
pub struct Host {
    pub state: Vec<u8>,
    pub table: Vec<u8>,
    pub list: Vec<u8>,
    pub log: Vec<u8>,
    pub cursor: Vec<u8>,
    pub buffer: Vec<u8>,
}

// A plan as numbers: a vertex is its weight, sizes and size literals, an edge its two ends and its literal.
#[derive(Default)]
pub struct Given {
    pub vertices: Vec<(i32, Vec<i32>, Vec<i32>)>,
    pub edges: Vec<[i32; 3]>,
    pub same_size: bool,
    pub extra_walls: bool,
}

impl Given {
    // Size literals and edges: document 01's "gates + size literals".
    pub fn slots(&self) -> usize {
        self.edges.len() + self.vertices.iter().map(|v| v.1.len().saturating_sub(1)).sum::<usize>()
    }

    // The plan's numbers as bytes: those of the vertices, those of the edges.
    pub fn bytes(&self) -> (Vec<u8>, Vec<u8>) {
        let mut vs = vec![0i32; 67 * self.vertices.len()];
        for (v, (weight, sizes, dom_lits)) in self.vertices.iter().enumerate() {
            let at = 67 * v;
            vs[at..at + 3].copy_from_slice(&[*weight, sizes.len() as i32, dom_lits.len() as i32]);
            vs[at + 3..at + 3 + sizes.len()].copy_from_slice(sizes);
            vs[at + 35..at + 35 + dom_lits.len()].copy_from_slice(dom_lits);
        }
        let es = self.edges.iter().flatten().flat_map(|x| x.to_le_bytes()).collect();
        (vs.iter().flat_map(|x| x.to_le_bytes()).collect(), es)
    }

    // The call alone, on what `bytes` gave.
    pub fn build_into(&self, (vs, es): &(Vec<u8>, Vec<u8>), state: &mut [u8]) -> i32 {
        let (n, m) = (self.vertices.len(), self.edges.len());
        let (same_size, extra_walls) = (self.same_size as i32, self.extra_walls as i32);
        let (vp, ep) = (vs.as_ptr(), es.as_ptr());
        let (s, len) = (state.as_mut_ptr(), state.len());
        unsafe { zuntjev_build(vp, vs.len(), n, ep, es.len(), m, same_size, extra_walls, s, len) }
    }

    // A built state, with a table of `variables` entries, a list of `lits` literals, and log and reason buffer as
    // short as they may be.
    pub fn build(&self, variables: usize, lits: usize) -> Host {
        let mut state = vec![0; STATE_LEN];
        assert_eq!(self.build_into(&self.bytes(), &mut state), 0, "building");
        Host {
            state,
            table: vec![0; variables],
            list: vec![0; 2 * lits],
            log: vec![0; 16 * self.slots()],
            cursor: vec![0; 8],
            buffer: vec![0; 2 * (self.edges.len() + 2 * self.vertices.len() + 4)],
        }
    }
}

impl Host {
    pub fn initialize(&mut self) -> i32 {
        let Host { state: s, table: t, list: l, log: g, cursor: c, .. } = self;
        let (sp, tp, lp, gp, cp) = (s.as_mut_ptr(), t.as_mut_ptr(), l.as_mut_ptr(), g.as_mut_ptr(), c.as_mut_ptr());
        unsafe { zuntjev_initialize(sp, s.len(), tp, t.len(), lp, l.len(), gp, g.len(), cp, c.len()) }
    }

    pub fn propagate(&mut self, lit: i32, pending: i32) -> i32 {
        let Host { state: s, table: t, list: l, log: g, cursor: c, .. } = self;
        let (sp, tp, lp, gp, cp) = (s.as_mut_ptr(), t.as_mut_ptr(), l.as_mut_ptr(), g.as_mut_ptr(), c.as_mut_ptr());
        unsafe { zuntjev_propagate(sp, s.len(), tp, t.len(), lp, l.len(), gp, g.len(), cp, c.len(), lit, pending) }
    }

    pub fn undo(&mut self, lit: i32) -> i32 {
        let Host { state: s, log: g, cursor: c, .. } = self;
        unsafe { zuntjev_undo(s.as_mut_ptr(), s.len(), g.as_ptr(), g.len(), c.as_mut_ptr(), c.len(), lit) }
    }

    pub fn reason(&mut self, lit: i32) -> i32 {
        let Host { state: s, log: g, cursor: c, buffer: b, .. } = self;
        let (sp, gp, cp, bp) = (s.as_ptr(), g.as_ptr(), c.as_ptr(), b.as_mut_ptr());
        unsafe { zuntjev_calc_reason(sp, s.len(), gp, g.len(), cp, c.len(), lit, bp, b.len()) }
    }

    pub fn last(&mut self) -> i32 {
        let Host { state: s, log: g, cursor: c, buffer: b, .. } = self;
        let (sp, gp, cp, bp) = (s.as_ptr(), g.as_ptr(), c.as_ptr(), b.as_mut_ptr());
        unsafe { zuntjev_calc_last(sp, s.len(), gp, g.len(), cp, c.len(), bp, b.len()) }
    }

    pub fn run(&mut self, from: i32, to: i32) -> i32 {
        let Host { state: s, log: g, cursor: c, buffer: b, .. } = self;
        let (sp, gp, cp, bp) = (s.as_ptr(), g.as_ptr(), c.as_ptr(), b.as_mut_ptr());
        unsafe { zuntjev_run(sp, s.len(), gp, g.len(), cp, c.len(), from, to, bp, b.len()) }
    }

    pub fn check(&self) -> i32 {
        unsafe { zuntjev_check(self.state.as_ptr(), self.state.len()) }
    }

    pub fn page(&self, page: &mut [u8]) -> i32 {
        let Host { state: s, log: g, cursor: c, .. } = self;
        let (sp, gp, cp, pp) = (s.as_ptr(), g.as_ptr(), c.as_ptr(), page.as_mut_ptr());
        unsafe { zuntjev_page(sp, s.len(), gp, g.len(), cp, c.len(), pp, page.len()) }
    }
}

// The first n literals of a list's or a reason buffer's bytes.
pub fn literals(bytes: &[u8], n: i32) -> Vec<i32> {
    bytes.chunks(2).take(n as usize).map(|b| i32::from(b[0]) + 256 * i32::from(b[1])).collect()
}
