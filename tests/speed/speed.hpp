// The reports. Nothing in them passes or fails by the clock, but each throws std::runtime_error
// where the library answers wrongly.
#pragma once

namespace speed {

// Write against a plain program of the same recurrences.
void report_write();

// Check, by the words of the tree.
void report_check();

} // namespace speed
