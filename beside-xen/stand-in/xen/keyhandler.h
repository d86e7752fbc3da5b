#pragma once
#define register_keyhandler(a...) do { } while (0)
