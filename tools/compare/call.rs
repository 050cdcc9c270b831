// ---------- the call of the library: target/staticlib/libcapi.a ----------

mod call {
    use super::Request;

    unsafe extern "C" {
        fn perlwynos_draw(
            class_code: *const u8,
            class_len: usize,
            swap: u8,
            tail: *const u8,
            tail_len: usize,
            count: usize,
            sn1: *const u8,
            sn1_len: usize,
            sn2: *const u8,
            sn2_len: usize,
            sn3: *const u8,
            sn3_len: usize,
            sn4: *const u8,
            sn4_len: usize,
            line: *mut u8,
            line_len: usize,
            index: *mut u16,
            index_len: usize,
            report: *mut u32,
        ) -> u32;
    }

    /// A request whose texts may be any bytes.
    #[derive(Clone, PartialEq)]
    pub struct Case {
        pub class: Vec<u8>,
        pub swap: bool,
        pub tail: Vec<u8>,
        pub tokens: Vec<Vec<u8>>,
    }

    impl Case {
        /// The same for the original, which takes text: None with bytes beyond ASCII.
        pub fn as_text(&self) -> Option<Request<'_>> {
            let text = |bytes| std::str::from_utf8(bytes).ok().filter(|t| t.is_ascii());
            Some(Request {
                class: text(&self.class)?,
                swap: self.swap,
                tail: text(&self.tail)?,
                tokens: self.tokens.iter().map(|t| text(t)).collect::<Option<_>>()?,
            })
        }
    }

    /// The report of include/perlwynos.h.
    pub type Report = [u32; 21];

    /// The number that the call returns. The call has places for four tokens; of a fifth it
    /// only needs to know that it is there.
    pub fn draw(case: &Case, line: &mut [u8], index: &mut [u16], report: &mut Report) -> u32 {
        let sn = |place: usize| case.tokens.get(place).map_or(&b""[..], |t| t);
        let (sn1, sn2, sn3, sn4) = (sn(0), sn(1), sn(2), sn(3));
        // SAFETY: the declaration is that of include/perlwynos.h. Each pointer is that of a
        // slice and goes with its own length, and the three that are written are borrowed
        // mutably, so that they overlap nothing. The library keeps no pointer.
        unsafe {
            perlwynos_draw(
                case.class.as_ptr(),
                case.class.len(),
                case.swap.into(),
                case.tail.as_ptr(),
                case.tail.len(),
                case.tokens.len(),
                sn1.as_ptr(),
                sn1.len(),
                sn2.as_ptr(),
                sn2.len(),
                sn3.as_ptr(),
                sn3.len(),
                sn4.as_ptr(),
                sn4.len(),
                line.as_mut_ptr(),
                line.len(),
                index.as_mut_ptr(),
                index.len(),
                report.as_mut_ptr(),
            )
        }
    }
}
