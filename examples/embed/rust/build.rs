//! Links the archive that stands in the folder `VK_C_LIBS`: `libvk_c.a`, as `bin/vk_c` or `bin/vk_c-unproved` of the repository make it.

fn main() {
    println!("cargo:rerun-if-env-changed=VK_C_LIBS");
    let Ok(folder) = std::env::var("VK_C_LIBS") else {
        println!("cargo:warning=VK_C_LIBS is to name the folder of libvk_c.a");
        std::process::exit(1);
    };
    println!("cargo:rerun-if-changed={folder}/libvk_c.a");
    println!("cargo:rustc-link-search=native={folder}");
    println!("cargo:rustc-link-lib=static=vk_c");
}
