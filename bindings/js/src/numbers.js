// The numbers of naltvigo.h that the package reads; scripts/header.py compares them.
export const OK = 0;
export const REFUSED = 1;
export const TOO_SMALL = 2;
export const NO_MEMORY = 3;
export const DIFFERENT = 6;
export const EVENT = 7;
export const MORE = 8;

export const TRUNCATED = 1;
export const TRAILING = 12;

export const DEPTH_MAX = 1024;
export const NO_ARGUMENT = 255;
