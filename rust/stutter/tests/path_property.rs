//! The proved makers succeed exactly when the path property holds.

mod makers;

use compare::Implementation;
use makers::make;

#[test]
fn what_is_made_has_the_path_property_and_the_rest_has_not() {
    let judge = stutter::judge;
    Implementation { make, judge }.require_path_property();
}
