//! E0597: a borrowed value does not live long enough.
pub struct Holder<'a> {
    held: &'a u32,
}

pub fn shown_after_its_block() -> u32 {
    let shown;
    {
        let value = 1;
        shown = &value; //~ E0597
    }
    *shown
}

pub fn shown_within_its_block() -> u32 {
    let shown;
    {
        let value = 1;
        shown = &value;
        drop(*shown);
    }
    0
}

pub fn overwritten_before_its_end() -> u32 {
    let outer = 0;
    let mut shown = &outer;
    {
        let value = 1;
        shown = &value;
        drop(*shown);
        shown = &outer;
    }
    *shown
}

pub fn pushed_to_a_longer_vector() {
    let mut kept = vec![];
    for it in 0..3 {
        kept.push(&it); //~ E0597
    }
}

pub fn pushed_to_a_vector_of_the_turn() {
    for it in 0..3 {
        let mut kept = vec![];
        kept.push(&it);
    }
}

pub fn in_a_struct_that_lives_longer() -> u32 {
    let holder;
    {
        let value = 1;
        holder = Holder { held: &value }; //~ E0597
    }
    *holder.held
}

pub fn demanded_static() {
    fn forever(_: &'static u32) {}
    let value = 1;
    forever(&value); //~ E0597
}

pub fn demanded_static_of_a_constant() {
    fn forever(_: &'static u32) {}
    forever(&1);
}

pub fn annotated_with_a_longer_region<'a>(outer: &'a u32) -> u32 {
    let value = *outer;
    let shown: &'a u32 = &value; //~ E0597
    *shown
}

pub fn annotated_with_its_own_region(outer: &u32) -> u32 {
    let value = *outer;
    let shown: &u32 = &value;
    *shown
}

pub fn the_order_of_drops() {
    struct Loud<'a>(&'a u32);
    impl Drop for Loud<'_> {
        fn drop(&mut self) {}
    }
    let loud;
    let value = 1;
    loud = Loud(&value); //~ E0597
    drop(&loud);
}

pub fn the_other_order_of_drops() {
    struct Loud<'a>(&'a u32);
    impl Drop for Loud<'_> {
        fn drop(&mut self) {}
    }
    let value = 1;
    let loud = Loud(&value);
    drop(&loud);
}

pub fn without_a_drop_the_order_is_free() {
    let holder;
    let value = 1;
    holder = Holder { held: &value };
    drop(&holder);
}

pub fn a_string_of_a_block_is_trimmed() -> usize {
    let word = {
        let text = String::from(" a ");
        text.trim() //~ E0597
    };
    word.len()
}

pub fn a_closure_that_outlives_what_it_shows() -> u32 {
    let show;
    {
        let value = 1;
        show = || value + 1; //~ E0597
    }
    show()
}

pub fn a_closure_that_owns_what_it_shows() -> u32 {
    let show;
    {
        let value = 1;
        show = move || value + 1;
    }
    show()
}

pub fn on_one_path_alone(flag: bool) -> u32 {
    let outer = 0;
    let shown;
    {
        let value = 1;
        if flag {
            shown = &value; //~ E0597
        } else {
            shown = &outer;
        }
    }
    *shown
}

pub fn on_a_path_that_does_not_look(flag: bool) -> u32 {
    let outer = 0;
    let mut shown = &outer;
    {
        let value = 1;
        shown = &value;
        drop(*shown);
    }
    if flag {
        shown = &outer;
        return *shown;
    }
    0
}
