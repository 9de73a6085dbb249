// Stands in for usb-device's test_class.rs, which only its own tests use.
