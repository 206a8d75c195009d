// Ours, not blart's: stands for src/tagged_pointer.rs. Empty, because our pointers keep the kind beside the address (raw/representation/pointers.rs).
