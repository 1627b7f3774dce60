// Connects by PgJDBC to a URL that is made of the variables of the environment, and prints a sum.
import java.sql.Connection;
import java.sql.DriverManager;
import java.sql.ResultSet;

public class Environment {
    public static void main(String[] arguments) throws Exception {
        String url = "jdbc:postgresql://" + System.getenv("PGHOST") + ":" + System.getenv("PGPORT") + "/" + System.getenv("PGDATABASE");
        try (Connection connection = DriverManager.getConnection(url, System.getenv("PGUSER"), "");
                ResultSet rows = connection.createStatement().executeQuery("SELECT 41 + 1")) {
            rows.next();
            System.out.println(rows.getInt(1));
        }
    }
}
