#pragma once
struct vpci_vcpu { int none; };
