// The sizes and places that docs/HOST.md gives.
use mm_host::layout::*;

#[test]
fn a_machine_lies_as_the_page_says() {
    assert_eq!((STACK_AT, STACK_SLOTS), (0, 1_024));
    assert_eq!((CALLS_AT, CALL_SLOTS), (8_192, 1_024));
    assert_eq!((MEMORY_AT, MEMORY_SIZE), (16_384, 1_024));
    assert_eq!((HEIGHT_AT, CALL_HEIGHT_AT, POINTER_AT), (17_408, 17_416, 17_424));
    assert_eq!((FLAGS_AT, HALTED_AT, MACHINE_SIZE), (17_432, 17_433, 17_434));
}

#[test]
fn tables_and_images_are_as_long_as_the_page_says() {
    assert_eq!((NUMBER_SIZE, RECORD_SIZE, INSTS_SIZE, LABELS_SIZE), (8, 32, 131_072, 16_416));
    assert_eq!((IMAGE_MAX, INST_MAX, LABEL_MAX, ENCODED_MAX), (16_384, 4_096, 512, 16_385));
}
