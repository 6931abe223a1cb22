// SPDX-License-Identifier: MIT OR Apache-2.0
//! Finds the C library: in the folder KERNFS_TREE_LIB_DIR, or else by pkg-config. It links the archives, or the shared
//! libraries if KERNFS_TREE_SHARED is set.

use std::process::Command;

fn main() {
    for name in ["KERNFS_TREE_LIB_DIR", "KERNFS_TREE_SHARED", "PKG_CONFIG_PATH"] {
        println!("cargo:rerun-if-env-changed={name}");
    }
    let folder = std::env::var("KERNFS_TREE_LIB_DIR").ok().or_else(|| {
        let printed = Command::new("pkg-config").args(["--variable=libdir", "kernfs_tree"]).output().ok()?;
        printed.status.success().then(|| String::from_utf8_lossy(&printed.stdout).trim().to_owned())
    });
    let folder = folder.expect("the C library is not installed: set KERNFS_TREE_LIB_DIR or PKG_CONFIG_PATH");
    println!("cargo:rustc-link-search=native={folder}");
    let kind = if std::env::var_os("KERNFS_TREE_SHARED").is_some() { "dylib" } else { "static" };
    for name in ["kernfs_tree_bind", "kernfs_tree"] {
        println!("cargo:rustc-link-lib={kind}={name}");
        println!("cargo:rerun-if-changed={folder}/lib{name}.a");
    }
}
