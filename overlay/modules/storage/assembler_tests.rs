    impl From<Vec<(usize, usize)>> for Assembler {
        fn from(holes_and_data: Vec<(usize, usize)>) -> Assembler {
            let (mut assembler, mut from) = (Assembler::new(), 0);
            for (hole, data) in holes_and_data {
                assembler.add(from + hole, data).unwrap();
                from += hole + data;
            }
            assembler
        }
    }
