
// What makes a program of the library's crate for the quick way, which compiles only programs. It makes each call of C once, so
// that none is left out; it never runs. (Its name ends otherwise than a source's that is checked, since nothing checks it.)

fn no_rect() -> lw_c_rectangles::Bounds {
    lw_c_rectangles::Bounds {
        min_x: 0,
        min_y: 0,
        max_x: 0,
        max_y: 0,
    }
}

fn no_make() -> lw_c_calls::MakeWords {
    lw_c_calls::MakeWords {
        kind: 0,
        x: 0,
        y: 0,
        w: 0,
        h: 0,
        hook: 0,
        bits_w: 0,
        bits_h: 0,
        has_hook: false,
        is_behind: false,
        is_backdrop: false,
    }
}

fn a_call() -> lw_c_calls::CallWords {
    lw_c_calls::CallWords {
        kind: 16,
        slot: 0,
        other: 0,
        operation: 0,
        x: 0,
        y: 0,
        w: 0,
        h: 0,
        source_x: 0,
        source_y: 0,
        rect: no_rect(),
        make: no_make(),
        number: 0,
        flag: false,
        is_nocare: false,
    }
}

fn main(rt: HostRuntime) {
    let alloc = rt.alloc();
    let mut desk = Handle {
        held: Held::none(alloc),
        is_open: false,
    };
    let sizes = OpenWords {
        width: 64,
        height: 32,
        depth: 2,
        slots: 4,
    };
    let glyphs = Glyphs {
        rows: [[0_u8; 8]; 95],
    };
    let _opened = lw_desk_open(alloc, &mut desk, &sizes, &glyphs);
    let _with = lw_desk_open_with(alloc, &mut desk, &sizes, &glyphs, &[], &[], &[], &[]);
    let mut reply = lw_c_calls::ReplyWords { kind: 0, number: 0 };
    let mut rects = [no_rect(); 4];
    let _called = lw_desk_call(alloc, &mut desk, &a_call(), &[], &mut reply, &mut rects);
    let mut numbers = [0_u32; 4];
    let mut bytes = [0_u8; 16];
    let mut count = 0_usize;
    let _layers = lw_desk_layers(&mut desk, &mut numbers, &mut count);
    let _bounds = lw_desk_bounds(&mut desk, 0, &mut rects[0]);
    let _visible = lw_desk_visible(&mut desk, 0, &mut rects, &mut count);
    let _damage = lw_desk_damage(&mut desk, 0, &mut rects, &mut count);
    let _messages = lw_desk_messages(&mut desk, 0, &mut bytes, &mut count);
    let _changed = lw_desk_changed(&mut desk, &mut rects, &mut count);
    let _pens = lw_desk_pens(alloc, &mut desk, &rects[0], &mut bytes);
    let _planes = lw_desk_planes(alloc, &mut desk, &rects[0], &mut bytes, &mut count);
    let _closed = lw_desk_close(alloc, &mut desk);
}
