"""provision-image: one command for people who build system images, around the program `provision`."""
